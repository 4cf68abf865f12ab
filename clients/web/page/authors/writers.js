/**
 * How replicas are called, and in which colours their texts are. A side knows its own replica once something was typed there, and
 * each daemon tells of those that are linked with it; one that is yet unknown has the beginning of its id for a name.
 */

import { OWN } from "./drawn.js";

/** How much of an id stands for a name, and how many colours there are. */
const LENGTH = 8;
const COLOURS = 6;

/** What the sides of a page know together. */
export class Replicas {
  /** @type {Map<string, string>} */
  #names = new Map();
  /** Those without a name, in the order in which they were met. @type {string[]} */
  #strangers = [];
  #people;
  #onChange;
  /** What asks each side's daemon. @type {(() => Promise<void>)[]} */
  #asks = [];

  /**
   * @param {string[]} people the names of the page's sides
   * @param {() => void} onChange
   */
  constructor(people, onChange) {
    this.#people = people;
    this.#onChange = onChange;
  }

  /** Asks each side's daemon who is linked with it. */
  ask() {
    for (const ask of this.#asks) ask();
  }

  /** @param {() => Promise<void>} ask a side's */
  add(ask) {
    this.#asks.push(ask);
  }

  /** Whether a side's replica is known. */
  hasSide(person) {
    return [...this.#names.values()].includes(person);
  }

  /**
   * @param {string} replica
   * @param {string} person
   */
  learn(replica, person) {
    if (this.#names.get(replica) === person) return;
    this.#names.set(replica, person);
    this.#onChange();
  }

  isKnown(replica) {
    return this.#names.has(replica);
  }

  /** @param {string} name a side's */
  side(name) {
    return { name, colour: this.#people.indexOf(name) };
  }

  /** @param {string} replica */
  writer(replica) {
    const name = this.#names.get(replica);
    if (name !== undefined) return this.side(name);
    if (!this.#strangers.includes(replica)) this.#strangers.push(replica);
    const { length } = this.#people;
    return { name: replica.slice(0, LENGTH), colour: length + (this.#strangers.indexOf(replica) % (COLOURS - length)) };
  }
}

/** The writers as one side sees them. */
export class Writers {
  #replicas;
  #person;

  /**
   * @param {Replicas} replicas
   * @param {string} person whose side it is
   * @param {string[]} others the other sides
   * @param {() => Promise<string[]>} ask gives the replicas that are linked with this side's daemon
   */
  constructor(replicas, person, others, ask) {
    this.#replicas = replicas;
    this.#person = person;
    replicas.add(async () => {
      const linked = await ask().catch(() => []);
      // If that is one alone, it is the other side's.
      if (linked.length === 1 && others.length === 1) replicas.learn(linked[0], others[0]);
    });
  }

  get isOwnKnown() {
    return this.#replicas.hasSide(this.#person);
  }

  /** @param {string} replica */
  learnOwn(replica) {
    this.#replicas.learn(replica, this.#person);
  }

  /** Writers were met: whose replicas they are is asked for, if that isn't known. */
  meet(replicas) {
    if (replicas.some((replica) => !this.#replicas.isKnown(replica))) this.#replicas.ask();
  }

  /** @param {string} by a replica, or this side's own */
  writer(by) {
    return by === OWN ? this.#replicas.side(this.#person) : this.#replicas.writer(by);
  }
}
