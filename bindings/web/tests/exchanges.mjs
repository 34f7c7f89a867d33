// Exchanges each two functions of the module that are asked alike, and answers which exchanges the worked answers do not
// see. Node runs it. The functions are those of one WebAssembly, handed to the module under each other's names; where several
// functions of the module have one in common, by a number, one number is taken for another too.
import { readFile } from "node:fs/promises";
import { failuresOfWorked } from "./compare.mjs";
import { load, SCHEMES } from "./str_indices.mjs";

// the functions over a text that are asked alike, by how their names in the exports end, and the one that no other is asked like
const ALIKE = [/_count(_\w+)?$/, /_(from|to)_byte_idx$/];
const ALONE = "str_indices_is_utf8";

// the functions over an index that take the number of what is counted, behind one argument: those that are asked alike
const COUNTED = [["from_byte_idx", "to_byte_idx"], ["count"]];

// the questions about lines and positions: those that are asked alike, and whether their answer has an address, which comes
// before the text; behind that they take the number of a kind of line, and some of an encoding
const QUESTIONS = [
  { names: ["line"], byAddress: true },
  { names: ["line_end"], byAddress: false },
  { names: ["position_of", "exact_position_of"], byAddress: true, hasEncoding: true },
  { names: ["range_of"], byAddress: true, hasEncoding: true },
  { names: ["byte_of", "exact_byte_of"], byAddress: false, hasEncoding: true },
  { names: ["byte_range"], byAddress: true, hasEncoding: true },
];
const LINE_TYPES = [2, 3, 4];
const ENCODINGS = [0, 1, 5];
// how many arguments a text takes, and an index
const LIBRARIES = { str_indices: 2, str_index: 1 };

const beside = (name) => readFile(new URL(name, import.meta.url));

/** Each two of them, in both orders. */
const pairs = (all) => all.flatMap((one) => all.filter((other) => other !== one).map((other) => [one, other]));

/** Exchanges of a number that these functions take behind so many arguments. */
function ofNumbers(exports, names, numbers, behind) {
  const byNumber = (name, from, to) => (...args) => exports[name](...args.with(behind, args[behind] === from ? to : args[behind]));
  return names.flatMap((name) =>
    pairs(numbers).map(([from, to]) => [`${name} of ${from} by ${to}, behind ${behind}`, { [name]: byNumber(name, from, to) }]));
}

/** Exchanges of these functions for each other. */
const ofNames = (exports, names) => pairs(names).map(([one, other]) => [`${one} by ${other}`, { [one]: exports[other] }]);

/** The names of the functions over a text. */
const namesOfTexts = (exports) => Object.keys(exports).filter((name) => name.startsWith("str_indices_"));

/** Each exchange of two functions over a text, as the exports that it changes, by its name. */
function ofTexts(exports) {
  return ALIKE.flatMap((end) => ofNames(exports, namesOfTexts(exports).filter((name) => end.test(name))));
}

/** The functions over a text of which this file knows no other that is asked alike. */
function unknown(exports) {
  const questions = QUESTIONS.flatMap(({ names }) => names.map((name) => `str_indices_${name}`));
  return namesOfTexts(exports).filter((name) => ![...questions, ALONE].includes(name) && !ALIKE.some((end) => end.test(name)));
}

/** Exchanges of the functions over an index that count, and of what they count. */
function ofCounts(exports) {
  return COUNTED.map((names) => names.map((name) => `str_index_${name}`))
    .flatMap((names) => [...ofNames(exports, names), ...ofNumbers(exports, names, [...SCHEMES.keys()], 1)]);
}

/** Exchanges of the questions about lines and positions, of a text and of an index, and of their numbers. */
function ofQuestions(exports) {
  return Object.entries(LIBRARIES).flatMap(([library, size]) =>
    QUESTIONS.flatMap(({ names, byAddress, hasEncoding }) => {
      const all = names.map((name) => `${library}_${name}`);
      const behind = size + Number(byAddress);
      return [
        ...ofNames(exports, all),
        ...ofNumbers(exports, all, LINE_TYPES, behind),
        ...(hasEncoding ? ofNumbers(exports, all, ENCODINGS, behind + 1) : []),
      ];
    }));
}

export async function tryExchanges() {
  const { instance } = await WebAssembly.instantiate(await beside("str_indices_web.wasm"));
  let exchanged = {};
  WebAssembly.instantiate = async () => ({ instance: { exports: { ...instance.exports, ...exchanged } } });
  const right = failuresOfWorked(await load(new Uint8Array())) === 0;
  const unseen = unknown(instance.exports);
  const tried = [...ofTexts(instance.exports), ...ofCounts(instance.exports), ...ofQuestions(instance.exports)];
  for (const [name, changed] of tried) {
    exchanged = changed;
    if (failuresOfWorked(await load(new Uint8Array())) === 0) {
      unseen.push(name);
    }
  }
  return { right, tried: tried.length, unseen };
}
