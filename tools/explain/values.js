// One value's bytes as plain text, word for word as values.py tells it. Nothing is rounded: what is shown tells the bytes apart.

const NULL_DECIMAL = -(2n ** 127n);
const NULL_DEGREES = 360;  // both numbers of a null point
const MICROSECONDS_IN_400_YEARS = 146_097n * 86_400n * 1_000_000n;  // the calendar repeats after these
const UTF_8 = new TextDecoder("utf-8", { fatal: true, ignoreBOM: true });

function hex(raw, between = "") {
  return Array.from(raw, byte => byte.toString(16).padStart(2, "0")).join(between);
}

function signed(raw) {
  return raw.length ? BigInt.asIntN(8 * raw.length, BigInt("0x" + hex(raw))) : 0n;
}

// A value of a column type, without its length.
function valueText(paper, type, raw) {
  switch (type) {
    case paper.FLOAT: return floatText(raw);
    case paper.STRING: return quoted(raw, paper.most_shown);
    case paper.TIMESTAMP: return utc(signed(raw));
    case paper.DECIMAL: return decimal(raw, paper.decimal_places);
    case paper.VARBINARY: return hexadecimal(raw, paper.most_shown);
    case paper.POINT: return point(raw);
    case paper.GEOGRAPHY: return opaque(raw);
    default: return String(signed(raw));
  }
}

// Text in quotes. Bytes that are no UTF-8, as a refused message may have, and characters that can't be printed, are escaped.
function quoted(raw, most) {
  let shown = "", at = 0;
  for (let count = 0; count < most && at < raw.length; count++) {
    const character = characterAt(raw, at);
    shown += character === null ? "\\x" + hex([raw[at]]) : oneCharacter(character);
    at += character === null ? 1 : sizeOfCharacter(raw[at]);
  }
  return at === raw.length ? `"${shown}"` : `"${shown}.." (${countOf(raw.length, "byte")})`;
}

function characterAt(raw, at) {
  try {
    return UTF_8.decode(raw.subarray(at, at + sizeOfCharacter(raw[at])));
  } catch {
    return null;
  }
}

// How many bytes a character has that starts so; a byte that starts none doesn't decode with another either.
function sizeOfCharacter(byte) {
  return byte < 0x80 ? 1 : byte < 0xe0 ? 2 : byte < 0xf0 ? 3 : 4;
}

function oneCharacter(character) {
  if (character === '"' || character === "\\") return "\\" + character;
  const printable = character === " " || !/[\p{Other}\p{Separator}]/u.test(character);
  return printable ? character : `\\u{${character.codePointAt(0).toString(16)}}`;
}

function decimal(raw, places) {
  const units = signed(raw);
  if (units === NULL_DECIMAL) return "null";
  const digits = String(units < 0n ? -units : units).padStart(places + 1, "0");
  return (units < 0n ? "-" : "") + digits.slice(0, -places) + "." + digits.slice(-places);
}

// A moment in UTC, in every year that the number can reach.
function utc(microseconds) {
  const past = (microseconds % MICROSECONDS_IN_400_YEARS + MICROSECONDS_IN_400_YEARS) % MICROSECONDS_IN_400_YEARS;
  const cycles = (microseconds - past) / MICROSECONDS_IN_400_YEARS;
  const moment = new Date(Number(past / 1000n)).toISOString();  // from 1970 to 2369: yyyy-mm-ddThh:mm:ss
  const year = BigInt(moment.slice(0, 4)) + 400n * cycles;
  const fraction = String(past % 1_000_000n).padStart(6, "0");
  return `${fourWide(year)}${moment.slice(4, 10)} ${moment.slice(11, 19)}.${fraction} UTC`;
}

function fourWide(year) {
  return year < 0n ? "-" + String(-year).padStart(3, "0") : String(year).padStart(4, "0");
}

function floatText(raw) {
  const number = float(raw);
  return Number.isNaN(number) ? `NaN (bits ${hex(raw)})` : floatDigits(number);
}

function float(raw) {
  return new DataView(raw.buffer, raw.byteOffset, raw.length).getFloat64(0);
}

// The fewest digits that give the number back, written as Python writes them.
function floatDigits(number) {
  const sign = isBackward(number) ? "-" : "";
  if (!Number.isFinite(number)) return sign + "inf";
  const [digits, power] = Math.abs(number).toExponential().split("e");
  const exponent = Number(power), plain = digits.replace(".", "");
  if (exponent < -4 || exponent >= 16) return `${sign}${digits}e${power[0]}${power.slice(1).padStart(2, "0")}`;
  if (exponent < 0) return `${sign}0.${"0".repeat(-exponent - 1)}${plain}`;
  return `${sign}${plain.slice(0, exponent + 1).padEnd(exponent + 1, "0")}.${plain.slice(exponent + 1) || "0"}`;
}

function isBackward(number) {
  return number < 0 || Object.is(number, -0);
}

function point(raw) {
  const longitude = float(raw.subarray(0, 8)), latitude = float(raw.subarray(8));
  if (longitude === NULL_DEGREES && latitude === NULL_DEGREES) return "null";
  return `longitude ${degrees(longitude, "E", "W")}, latitude ${degrees(latitude, "N", "S")}`;
}

function degrees(number, positive, negative) {
  if (Number.isNaN(number)) return "NaN";  // in a message that is refused for it
  return `${floatDigits(Math.abs(number))}° ${isBackward(number) ? negative : positive}`;
}

function hexadecimal(raw, most) {
  if (raw.length <= most) return "0x" + hex(raw);
  return `0x${hex(raw.subarray(0, most))}.. (${countOf(raw.length, "byte")})`;
}

function opaque(raw) {
  return `${countOf(raw.length, "byte")}, not looked into`;
}

function lengthText(number) {
  return number === -1n ? "null" : countOf(number, "byte");
}

function countOf(number, thing) {
  return `${number} ${thing}${Number(number) === 1 ? "" : "s"}`;
}

function named(number, names) {
  return Object.hasOwn(names, number) ? `${number}: ${names[number]}` : String(number);
}

function flagsText(number, names) {
  const set = names.filter(([bit]) => number & bit).map(([, name]) => name);
  return `${number}: ${set.join(", ") || "none"}`;
}
