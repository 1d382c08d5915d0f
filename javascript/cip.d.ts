/** Cahn-Ingold-Prelog labels of molecules, by the proved library `libcip` as a WebAssembly module. */

/** The text of one molfile (V2000 or V3000), or one record of an SDfile. */
export type MolRecord = string | Uint8Array;

export type Letter = "R" | "S" | "r" | "s" | "Z" | "E" | "seqCis" | "seqTrans" | "M" | "P" | "m" | "p";

export type Rule = "1a" | "1b" | "2" | "3" | "4a" | "4b" | "4c" | "5";

/** The label of a stereogenic unit, and what it rests on. */
export interface Label {
  /** `a1` for the centre at atom 1, `b2-3` for a double bond, `x1-3` for the axis of an allene. */
  unit: string;
  /** The atoms of the unit, from 1: one of a centre, two of a double bond or an axis. */
  atoms: number[];
  letter: Letter;
  /** The sequence rule that was needed last, and the sphere in which it decided. */
  rule: Rule;
  sphere: number;
  /** The ligands of each end, highest first: atoms by number, `H` for a hydrogen not drawn, `:` for a lone pair. */
  order: string[][];
}

/** A unit of which the drawing shows no sense. Rule, sphere and order are there if it is open. */
export interface Undefined {
  unit: string;
  atoms: number[];
  state: "open" | "dependent" | "tie" | "over";
  rule?: Rule;
  sphere?: number;
  order?: string[][];
}

export interface Settings {
  /** How many nodes a digraph may have, 1 to 1,000,000; 100,000 if it isn't given. */
  nodes?: number;
  /** The year of the wording of Rule 1b; 2018 if it isn't given. */
  rule1b?: 2013 | 2018;
}

export interface Source {
  /** The module: its address, its bytes or the compiled module; libcip.wasm beside this file if it isn't given. */
  source?: string | URL | Uint8Array | ArrayBuffer | WebAssembly.Module;
}

/** Why a record has no labels. */
export class CipError extends Error {}

/** A record that isn't a molfile that is read: at its line `line`, counted from 1, for `cause`. */
export class Refused extends CipError {
  readonly line: number;
  readonly cause: string;
}

export class Labeller {
  constructor(module: WebAssembly.Module, settings?: Settings);
  labels(record: MolRecord): Label[];
  /** The units without a label, since a digraph of theirs is larger than the bound on nodes. */
  over(record: MolRecord): string[];
  undefined(record: MolRecord): Undefined[];
  /** The record with its data item CIP_LABELS. */
  annotate(record: string): string;
  annotate(record: Uint8Array): Uint8Array;
  values(record: MolRecord): string[];
  /** A line for every unit: its label, or why it has none. */
  explain(record: MolRecord): string[];
  close(): void;
}

export function load(options?: Settings & Source): Promise<Labeller>;

/** The labels of a record, by a labeller that is loaded once. */
export function labels(record: MolRecord): Promise<Label[]>;
