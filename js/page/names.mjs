// names.csv, the names of what the bin files number, as `crr pack` writes it, and names where there are none.

const TABLES = ["node", "constraint", "contract", "holder", "start", "end", "hour", "form"];
const MOST_HOLDER = 1023;

// The records of a CSV text, each with the line that it begins in. A quote left open is an Error.
export function records(text) {
  const rows = [];
  let at = 0;
  let line = 1;
  let row = [];
  while (at < text.length) {
    const begin = line;
    const { field, end } = fieldAt(text, at, line);
    row.push(field);
    line += text.slice(at, end).split("\n").length - 1;
    at = end;
    if (text[at] === ",") {
      at += 1;
      if (at === text.length) row.push("");
      else continue;
    }
    if (row.length > 1 || row[0] !== "") rows.push({ line: begin, row });
    row = [];
    if (text[at] === "\r") at += 1;
    if (text[at] === "\n") at += 1;
    line += 1;
  }
  return rows;
}

function fieldAt(text, at, line) {
  if (text[at] !== '"') {
    const [field] = /^[^,\r\n]*/.exec(text.slice(at, at + 65536));
    return { field, end: at + field.length };
  }
  const [quoted] = /^"(?:[^"]|"")*"/.exec(text.slice(at)) ?? [];
  if (quoted === undefined) throw new Error(`line ${line}: a quote is left open`);
  const end = at + quoted.length;
  const behind = text[end] ?? "\n";
  if (!",\r\n".includes(behind)) throw new Error(`line ${line}: text behind a quote`);
  return { field: quoted.slice(1, -1).replaceAll('""', '"'), end };
}

function rowFault(tables, table, number, name) {
  if (!(table in tables)) return `TABLE: ${table} is none of ${TABLES.join(", ")}`;
  if (!/^[0-9]{1,9}$/.test(number)) return `NUMBER: ${number} is not a number from 0 on`;
  if (tables[table].has(Number(number))) return `NUMBER: ${table} ${number} occurs twice`;
  if (table === "holder" && Number(number) > MOST_HOLDER) {
    return `NUMBER: holder ${number} is above ${MOST_HOLDER}`;
  }
  return name === "" ? "NAME: empty" : "";
}

// Names by table and number. What is damaged is an Error that says the line.
export function readNames(text) {
  const tables = Object.fromEntries(TABLES.map((table) => [table, new Map()]));
  const [head, ...rows] = records(text.replace(/^\ufeff/, ""));
  const at = ["TABLE", "NUMBER", "NAME"].map((column) => head?.row.indexOf(column) ?? -1);
  if (at.includes(-1)) throw new Error("its first line is not TABLE,NUMBER,NAME");
  for (const { line, row } of rows) {
    const [table, number, name] = at.map((i) => row[i] ?? "");
    const fault = rowFault(tables, table, number, name);
    if (fault) throw new Error(`line ${line}: ${fault}`);
    tables[table].set(Number(number), name);
  }
  return tables;
}

// The tables of names.csv in the form that a page's case has.
export function namesOf(tables) {
  const list = (table) => {
    const names = [];
    for (const [number, name] of tables[table]) names[number] = name;
    return names;
  };
  const contracts = list("contract").map((id) => ({ id }));
  const owners = Object.fromEntries(tables.holder);
  return { nodes: list("node"), constraints: list("constraint"), owners, contracts };
}

// Names for so many of each: N0, K0 and the contract's number where there are none. More than there are is
// an Error, as two of one name are.
export function completed(names, counts) {
  const of = (what, given, count, prefix) => {
    const last = given.length - 1;
    if (last >= count) throw new Error(`${what} ${last} is named, and the files have ${count}`);
    const all = Array.from({ length: count }, (_, i) => given[i] ?? `${prefix}${i}`);
    if (new Set(all).size < count) throw new Error(`two of the ${what}s have one name`);
    return all;
  };
  const ids = Array.from(names.contracts ?? [], (contract) => contract?.id);
  const owners = names.owners ?? {};
  return {
    nodes: of("node", names.nodes ?? [], counts.nodes, "N"),
    constraints: of("constraint", names.constraints ?? [], counts.constraints, "K"),
    contracts: of("contract", ids, counts.contracts, ""),
    owner: (number) => owners[number] ?? String(number),
    owners,
  };
}

function quoted(text) {
  return /[",\r\n]/.test(text) ? `"${text.replaceAll('"', '""')}"` : text;
}

// names.csv of rows of table, number and name.
export function writeNames(rows) {
  const lines = rows.map((row) => row.map(String).map(quoted).join(","));
  return `${["TABLE,NUMBER,NAME", ...lines].join("\n")}\n`;
}
