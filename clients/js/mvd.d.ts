// The types of mvd.js.

/** A value of JSON whose numbers are whole; one past 2^53 is a bigint. */
export type Json = null | boolean | number | bigint | string | Json[] | { [name: string]: Json };
export type Document = { [name: string]: Json };
/** What an author has seen: what was got or written, or its context's text; nothing is the empty context. */
export type Seen = { context: string } | string | undefined | null;
export type Merge = (documents: Document[]) => Document | undefined;

/** What a site or a server refuses, by the numbers of docs/BEHAVIOUR.md. */
export class Refused extends Error {
  readonly number: number;
  readonly refusal: string;
  /** The place in a document, as a path. */
  readonly at?: string;
  /** The status of a response. */
  readonly status?: number;
}

/** No server answered, or the response was cut. A write may have been stored all the same. */
export class Unreachable extends Error {}

export interface Sibling {
  readonly dot: string;
  /** The compact text, in which no number is rounded. */
  readonly text: string;
  readonly document: Document;
}

export class State {
  readonly key: string;
  readonly context: string;
  readonly siblings: readonly Sibling[];
  readonly documents: Document[];
}

export interface Written { key: string; dot: string; context: string }
export interface Held { key: string; siblings: number }

export interface Report {
  /** How many keys differed and were exchanged. */
  keys: number;
  /** The keys that one side refused, and which. */
  refused: { key: string; side: "here" | "there"; number: number; name: string }[];
  /** Of how many keys the server had dots of this site that its store has not: the store is an old copy. */
  older: number;
  /** The server did not wait, as too many readers wait there. */
  busy?: true;
}

export interface Reach {
  token?: string;
  fetch?: typeof fetch;
}

export interface SyncOptions extends Reach {
  /** Only the keys that begin with it. */
  prefix?: string;
  /** Compares all digests, whatever was met before. */
  whole?: boolean;
  /** Waits up to so many seconds until something changes at the server. */
  wait?: number;
  /** Ends that wait, and the session goes on. */
  interrupt?: AbortSignal;
  /** Ends the session. */
  signal?: AbortSignal;
}

export interface FollowOptions extends Reach {
  prefix?: string;
  wait?: number;
  signal?: AbortSignal;
  onsync?: (report: Report) => void;
  onfault?: (fault: Error) => void;
}

export class Site {
  static open(name?: string, options?: { site?: number; store?: object; maxKeys?: number }): Promise<Site>;
  /** The site's number; 0 until it has one. */
  readonly number: number;
  claim(url: string | string[] | Client, options?: Reach & { prefix?: string }): Promise<number>;
  close(): void;

  get(key: string): Promise<State>;
  keys(options?: { prefix?: string; live?: boolean }): Promise<Held[]>;
  conflicts(): Promise<Held[]>;
  all(prefix?: string): Promise<State[]>;
  root(): Promise<string>;
  node(path: string): Promise<string>;

  put(key: string, document: Document | string, seen?: Seen): Promise<Written>;
  delete(key: string, seen: Seen): Promise<void>;
  push(key: string, state: State): Promise<void>;
  resolve(key: string, merge: Merge): Promise<Written | void>;
  /** Tells the keys that change. Gives what ends that. */
  subscribe(listener: (keys: string[]) => void): () => void;

  sync(url: string | string[] | Client, options?: SyncOptions): Promise<Report>;
  /** Syncs as soon as something changes here or there, until `signal` ends it. */
  follow(url: string | string[] | Client, options?: FollowOptions): Promise<void>;
}

/** A store that ends with the program. Two sites over one store are as two tabs of one name. */
export class Memory {}

export interface Place { term: Json; key: string; dot: string; document?: Document }
export interface Row { term: Json; count: number; sum: number | bigint; least?: number | bigint; greatest?: number | bigint }
export interface Change { root: string; resync: boolean; keys: string[]; states: State[] }

export class Client {
  constructor(servers: string | string[], options?: Reach & { timeout?: number });
  /** The server that is asked now. */
  readonly name: string;
  /** How many requests were made. */
  readonly requests: number;

  get(key: string): Promise<State>;
  put(key: string, document: Document | string, seen?: Seen): Promise<Written>;
  delete(key: string, seen: Seen): Promise<void>;
  resolve(key: string, merge: Merge): Promise<Written | void>;

  getMany(keys: Iterable<string>): AsyncGenerator<State>;
  write(writes: Iterable<Write> | AsyncIterable<Write>): AsyncGenerator<{ dot?: string; fault?: Refused }>;
  push(states: Iterable<State>): Promise<{ fault?: Refused }[]>;

  keys(options?: { prefix?: string; live?: boolean; documents?: false; limit?: number }): AsyncGenerator<Held>;
  keys(options: { prefix?: string; live?: boolean; documents: true; limit?: number }): AsyncGenerator<State>;
  conflicts(options?: { documents?: false }): AsyncGenerator<Held>;
  conflicts(options: { documents: true }): AsyncGenerator<State>;
  find(field: string, term: Json, options?: { documents?: boolean }): AsyncGenerator<Place>;
  range(field: string, from: Json, to: Json, options?: { documents?: boolean }): AsyncGenerator<Place>;
  rows(view: string): AsyncGenerator<Row>;
  row(view: string, term: Json): Promise<Row>;
  root(): Promise<{ root: string; keys: number; live: number; conflicts: number; site: number }>;
  follow(options?: { since?: string; prefix?: string; wait?: number; states?: boolean; signal?: AbortSignal }): AsyncGenerator<Change>;
}

/** A write, or without a document a delete. */
export interface Write { key: string; document?: Document | string; seen?: Seen }

export function keepBoth(documents: Document[]): Document;
export function greatest(documents: Document[], field: string): Document;
export type Counts = { [thing: string]: { [writer: string]: [added: number, taken: number] } };
export function mergeCounts(documents: Document[]): Counts;
export function addCount(document: Document, writer: string, thing: string, count: number): Counts;
export function countOf(document: Document, thing: string): number;

export interface ContextEntry { site: number; base: number; loose: number[] }
export function readDocument(text: string): string;
export function compact(document: Document): string;
export function parse(text: string): Json;
export function readContext(text: string): ContextEntry[];
export function contextText(context: ContextEntry[]): string;
export function union(a: ContextEntry[], b: ContextEntry[]): ContextEntry[];
export function placeOf(key: string): string;
export function spelled(state: { context: string; siblings: readonly { dot: string; text: string }[] }): Uint8Array;
export function digest(state: { key: string; context: string; siblings: readonly { dot: string; text: string }[] }): string;
export function sha256(bytes: Uint8Array): Uint8Array;
export function hex(bytes: Uint8Array): string;
export function byBytes(a: string, b: string): number;
