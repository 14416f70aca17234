// Look-ups in tables by a text that may come from anywhere. A table that is an object has its own names and no others,
// such as 'constructor', which every object inherits.
export const valueIn = (table, name) => (Object.hasOwn(table, name) ? table[name] : undefined);
