import { Indices } from "./str_indices.mjs";

export * from "./str_indices.mjs";

/** Loads the functions, which this module has inside. */
export function load(): Promise<Indices>;
