"""A file system of fsspec for s3:// over boto3, for tests where s3fs is not installed. fsspec takes it for s3fs by its
name.

It has what sdtool.distributed calls, with as many requests as s3fs: ranges, listings, uploads in parts that are
committed, removals of many, and the ETag of each object. The option endpoint_url names the server, as with s3fs. Each
request takes S3_SECONDS more, and is a line of the file S3_LOG.
"""
import os
import time

import boto3
from botocore.exceptions import ClientError
from fsspec.spec import AbstractBufferedFile, AbstractFileSystem


class S3FileSystem(AbstractFileSystem):
    protocol = "s3"

    def __init__(self, endpoint_url, **options):
        super().__init__(endpoint_url=endpoint_url, **options)
        self.client = boto3.client("s3", endpoint_url=endpoint_url, region_name="us-east-1",
                                   aws_access_key_id="test", aws_secret_access_key="test")
        self.client.meta.events.register("before-send.s3", self.count)

    def count(self, request, **_):
        if "S3_LOG" in os.environ:
            with open(os.environ["S3_LOG"], "a") as log:
                log.write(f"{request.method} {request.url}\n")
        time.sleep(float(os.environ.get("S3_SECONDS", 0)))

    def place(self, path):
        bucket, _, key = self._strip_protocol(path).partition("/")
        return {"Bucket": bucket, "Key": key}

    def info(self, path, **options):
        path = self._strip_protocol(path)
        try:
            told = self.client.head_object(**self.place(path))
        except ClientError:
            if self.below(path):
                return {"name": path, "size": 0, "type": "directory"}
            raise FileNotFoundError(path) from None
        return {"name": path, "size": told["ContentLength"], "type": "file", "ETag": told["ETag"],
                "LastModified": told["LastModified"]}

    def below(self, path, delimiter="/"):
        """What is in a folder: objects, and folders of which objects are."""
        place, found = self.place(path), []
        listed = self.client.get_paginator("list_objects_v2").paginate(Bucket=place["Bucket"],
                                                                       Prefix=f"{place['Key']}/", Delimiter=delimiter)
        for page in listed:
            found += [{"name": f"{place['Bucket']}/{one['Key']}", "size": one["Size"], "type": "file",
                       "ETag": one["ETag"]}
                      for one in page.get("Contents", ())]
            found += [{"name": f"{place['Bucket']}/{one['Prefix'].rstrip('/')}", "size": 0, "type": "directory"}
                      for one in page.get("CommonPrefixes", ())]
        return found

    def ls(self, path, detail=True, **options):
        found = self.below(path) or [self.info(path)]
        return found if detail else [one["name"] for one in found]

    def find(self, path, **options):
        return [one["name"] for one in self.below(path, "")]

    def cat_file(self, path, start=None, end=None, **options):
        span = {} if start is None else {"Range": f"bytes={start}-{end - 1}"}
        try:
            return self.client.get_object(**self.place(path), **span)["Body"].read()
        except ClientError:
            raise FileNotFoundError(path) from None

    def pipe_file(self, path, value, **options):
        self.client.put_object(**self.place(path), Body=value)

    def _open(self, path, mode="rb", **options):
        return S3File(self, path, mode, **options)

    def rm(self, path, **options):
        paths = [path] if isinstance(path, str) else path
        self.client.delete_objects(Bucket=self.place(paths[0])["Bucket"],
                                   Delete={"Objects": [{"Key": self.place(one)["Key"]} for one in paths]})

    def rm_file(self, path):
        self.client.delete_object(**self.place(path))


class S3File(AbstractBufferedFile):
    def _fetch_range(self, start, end):
        return self.fs.cat_file(self.path, start, end)

    def _initiate_upload(self):
        self.parts = []
        self.upload = {**self.fs.place(self.path),
                       "UploadId": self.fs.client.create_multipart_upload(**self.fs.place(self.path))["UploadId"]}

    def _upload_chunk(self, final=False):
        self.buffer.seek(0)
        number, data = len(self.parts) + 1, self.buffer.read()
        if data or not self.parts:
            sent = self.fs.client.upload_part(**self.upload, PartNumber=number, Body=data)
            self.parts.append({"PartNumber": number, "ETag": sent["ETag"]})
        if final and self.autocommit:
            self.commit()
        return True

    def commit(self):
        self.fs.client.complete_multipart_upload(**self.upload, MultipartUpload={"Parts": self.parts})

    def discard(self):
        if getattr(self, "upload", None):
            self.fs.client.abort_multipart_upload(**self.upload)
