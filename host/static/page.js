// Gives the core's form what its plain lines do not have: labels, the cursor in the first field, and names that a password keeper knows.
// The words come with the page, in the browser's language. Without this script the form works all the same.
'use strict';
const words = document.getElementById('words');
document.documentElement.lang = words.lang;
document.title = words.querySelector('h1').textContent;

const field = (name, autocomplete) => {
  const input = document.querySelector(`input[name="${name}"]`);
  if (!input) return;
  input.id = name;
  input.autocomplete = autocomplete;
  input.required = true;
  input.autocapitalize = 'none';
  input.spellcheck = false;
  const label = document.createElement('label');
  label.htmlFor = name;
  label.textContent = words.dataset[name];
  input.before(label);
};
field('username', 'username');
field('password', 'current-password');

const first = document.getElementById('username');
if (first) first.focus();
const button = document.querySelector('button');
if (button) button.textContent = words.dataset.enter;
const back = document.querySelector('a');
if (back) back.textContent = words.dataset.back;
