// What browsers and Node have, and tsc's own libraries don't describe.
declare class DecompressionStream {
    constructor(format: string);
    readonly readable: ReadableStream;
    readonly writable: WritableStream;
}
declare module "node:*";
declare var process: any;
