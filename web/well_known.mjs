// SIDs, rights and types of ACEs that the page itself asks for.
export const EVERYONE = "S-1-1-0";
export const OWNER_RIGHTS = "S-1-3-4";
export const [DELETE, WRITE_DAC, WRITE_OWNER, SYNCHRONIZE] = [0x10000, 0x40000, 0x80000, 0x100000];
export const TAKE_OVER = WRITE_DAC | WRITE_OWNER;
export const [SYSTEM_SECURITY, MAXIMUM_ALLOWED] = [0x1000000, 0x2000000];
export const GENERIC = 0xf0000000;
export const ALLOWS = ["A", "OA"];
export const DENIES = ["D", "OD"];
export const DECIDING = [...ALLOWS, ...DENIES];
