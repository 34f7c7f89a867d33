// Prints the byte where the second line begins.
import { load } from "../../npm/str_indices/str_indices.mjs";

const { linesCrlf } = await load();
console.log(linesCrlf.toByteIdx("one\r\ntwo", 1));
