// node in-node.mjs MODULE CALLS: makes the recorded calls in node. Exit status: 0 all are right; 1 one is not.
import { readFileSync } from 'node:fs';
import { replay_and_drive, report } from './replay.mjs';

const [module, calls] = process.argv.slice(2).map((path) => readFileSync(path));
process.exitCode = report('node', await replay_and_drive(module, calls));
