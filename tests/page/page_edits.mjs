// Asks the library for edits that come as JSON, a list of {descriptor, changes}, with bytes in hex, and prints the
// descriptors after them. Its argument is the library, sdtool.mjs beside its sdtool.wasm.
import {bytesOfHex, hexOf} from "../../web/library.mjs";
import {asked, library, print} from "../shared/page.mjs";

const bytes = (hex) => (hex ? bytesOfHex(hex) : null);

const aceOf = ({sid, objectType, inheritedObjectType, ...ace}) =>
    ({...ace, sid: bytes(sid), objectType: bytes(objectType), inheritedObjectType: bytes(inheritedObjectType)});

const changeOf = ({ace, sid, ...change}) =>
    ({...change, ...(ace ? {ace: aceOf(ace)} : {}), ...(sid === undefined ? {} : {sid: bytes(sid)})});

const edited = ({descriptor, changes}) => hexOf(library.edit(bytes(descriptor), changes.map(changeOf)).descriptor);

print(asked.map(edited));
