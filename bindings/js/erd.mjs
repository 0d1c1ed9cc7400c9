#!/usr/bin/env node
// The command. Node itself ends with 1 where a module can't be loaded, which would say that a file was refused: so both are loaded
// where that is caught.
try {
    const [{ statusOf }, { run }] = await Promise.all([import('./lib/ending.mjs'), import('./lib/command.mjs')]);
    process.exitCode = await statusOf(() => run(process.argv.slice(2)));
} catch (error) {
    process.exitCode = 3;
    console.error(`erd failed: ${error.name}: the package is not whole, or Node is older than 18`);
}
