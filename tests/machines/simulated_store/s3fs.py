"""A file system of fsspec for s3://, of which fsspec takes it for s3fs by its name: an object store in which a request
takes 20 ms, and time for its bytes.

The bucket `inputs` has SIMULATED objects of SIMULATED_BYTES bytes, which are nowhere but in lines of the same
descriptor. All other objects are files in the folder SIMULATED_FOLDER. SIMULATED_SPEED bytes go through a connection in
a second. Each request is a byte of the file asked-PID there, the first of its method.
"""
import os
import time
import uuid

from fsspec.spec import AbstractFileSystem

LINE = b"0100008014000000000000000000000000000000010100000000000512000000\n"
SECONDS = float(os.environ.get("SIMULATED_SECONDS", 0.02))
NUMBER, BYTES = int(os.environ["SIMULATED"]), int(os.environ["SIMULATED_BYTES"])
SPEED, FOLDER = float(os.environ["SIMULATED_SPEED"]), os.environ["SIMULATED_FOLDER"]


def ask(method, length=0):
    time.sleep(SECONDS + length / SPEED)
    with open(f"{FOLDER}/asked-{os.getpid()}", "ab", buffering=0) as file:
        file.write(method[:1])


def input_of(path):
    bucket, _, key = path.partition("/")
    return {"name": path, "size": BYTES, "type": "file", "ETag": f"tag {key}"} if bucket == "inputs" and key else None


class S3FileSystem(AbstractFileSystem):
    protocol = "s3"

    def place(self, path):
        return f"{FOLDER}/{self._strip_protocol(path)}"

    def info(self, path, **options):
        ask(b"HEAD")
        path = self._strip_protocol(path)
        if input_of(path):
            return input_of(path)
        if path == "inputs" or os.path.isdir(self.place(path)):
            return {"name": path, "size": 0, "type": "directory"}
        told = os.stat(self.place(path))
        return {"name": path, "size": told.st_size, "type": "file", "ETag": str(told.st_ino)}

    def ls(self, path, detail=True, **options):
        path = self._strip_protocol(path)
        if path == "inputs":
            for _ in range(0, NUMBER, 1000):  # of which a listing has no more
                ask(b"LIST")
            return [input_of(f"inputs/{number}") for number in range(NUMBER)]
        ask(b"LIST")
        return [{"name": f"{path}/{name}", "size": 0, "type": "directory" if os.path.isdir(self.place(f"{path}/{name}"))
                 else "file"} for name in os.listdir(self.place(path))]

    def find(self, path, **options):
        ask(b"LIST")
        return [os.path.join(folder, name)[len(FOLDER) + 1:]
                for folder, _, names in os.walk(self.place(path)) for name in names]

    def cat_file(self, path, start=None, end=None, **options):
        path = self._strip_protocol(path)
        if input_of(path):
            size = end - start
            data = (LINE * (size // len(LINE) + 2))[start % len(LINE):][:size]
        else:
            with open(self.place(path), "rb") as file:
                data = file.read()[start:end]
        ask(b"GET", len(data))
        return data

    def pipe_file(self, path, value, **options):
        ask(b"PUT", len(value))
        place = self.place(path)
        os.makedirs(os.path.dirname(place), exist_ok=True)
        unfinished = f"{FOLDER}/{uuid.uuid4().hex}"
        with open(unfinished, "wb") as file:
            file.write(value)
        os.replace(unfinished, place)

    def rm(self, path, **options):
        ask(b"DELETE")
        for one in path:
            os.remove(self.place(one))

    def rm_file(self, path):
        ask(b"DELETE")
        os.remove(self.place(path))
