// Elements of the page, made of texts alone: nothing that comes from a file is read as HTML.

/** An element with attributes and children; a child may be a text, an element or nothing. */
export function make(name, attributes = {}, ...children) {
  const element = document.createElement(name);
  for (const [key, value] of Object.entries(attributes)) {
    if (key.startsWith('on')) element.addEventListener(key.slice(2), value);
    else if (value === true) element.setAttribute(key, '');
    else if (value !== false && value !== undefined && value !== null) element.setAttribute(key, value);
  }
  element.append(...children.flat().filter((child) => child !== null && child !== undefined && child !== false));
  return element;
}

/** A button that does something. */
export function button(text, act, attributes = {}) {
  return make('button', { type: 'button', onclick: act, ...attributes }, text);
}

export const byId = (id) => document.getElementById(id);
