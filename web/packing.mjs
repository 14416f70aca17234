// Lists between the worker and the page. A browser copies a text from the worker at once, but objects one by one. So a
// list that may be long is sent as one text, with an item of JSON in each line, and only what is shown is read again.
export const packed = (items) => items.map((item) => JSON.stringify(item)).join("\n");

export const linesOf = (text) => (text ? text.split("\n") : []);

export const itemsOf = (text) => linesOf(text).map((line) => JSON.parse(line));
