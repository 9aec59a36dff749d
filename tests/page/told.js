// node told.js PAGE..: takes the packed message out of each page and prints, as JSON, each field's six numbers and what the page's scripts tell of it.
"use strict";
const fs = require("node:fs"), path = require("node:path"), vm = require("node:vm");

const scripts = ["values.js", "fields.js"].map(name => fs.readFileSync(path.join(__dirname, "../../tools/explain", name), "utf8"));
const { Message, fromBase64, unpackedIds } = vm.runInThisContext(scripts.join("\n") + "\n({ Message, fromBase64, unpackedIds });");

function told(page) {
  const packed = name => page.match(new RegExp(`<script id="data-${name}"[^>]*>([^]*?)</script>`))[1];
  const data = JSON.parse(packed("told"));
  const message = new Message(data, fromBase64(packed("bytes")), unpackedIds(packed("ids"), data.bytes_in_id));
  return Array.from({ length: message.count }, (_, field) => toldField(message, field));
}

function toldField(message, field) {
  return [message.offset[field], message.size(field), message.number(field), message.i[field], message.j[field], message.k[field],
    message.name(field), message.where(field), message.value(field)];
}

process.stdout.write(JSON.stringify(process.argv.slice(2).map(path => told(fs.readFileSync(path, "utf8")))));
