// Waits in JavaScript: prints `NAME MILLISECONDS MICROSECONDS RESULT` for each wait. See ../main.c.
const { spawn, spawnSync } = require("child_process");
const { createServer, connect } = require("net");
const { setTimeout: later } = require("timers/promises");

const cases = {
    timeout: () => later(30, "over"),
    atomics: () => Atomics.wait(new Int32Array(new SharedArrayBuffer(4)), 0, 0, 30),
    spawn: () => new Promise((done) => spawn("sh", ["-c", "sleep 0.03; exit 3"]).on("exit", done)),
    spawn_sync: () => spawnSync("sh", ["-c", "sleep 0.03; exit 4"]).status,
    output: () => new Promise((done) => spawn("sh", ["-c", "sleep 0.03; echo hi"]).stdout.once("data", (data) => done(String(data).trim()))),
    interval: () => new Promise((done) => {
        let count = 0;
        const timer = setInterval(() => { if (++count === 3) { clearInterval(timer); done(count); } }, 10);
    }),
    socket: () => new Promise((done) => {
        const server = createServer((peer) => setTimeout(() => { peer.end("hello"); server.close(); }, 30));
        server.listen(0, "127.0.0.1", () => connect(server.address().port, "127.0.0.1").once("data", (data) => done(String(data))));
    }),
};

(async () => {
    for (const [name, call] of Object.entries(cases)) {
        const begun = process.hrtime.bigint();
        const result = await call();
        console.log(`${name} 30 ${(process.hrtime.bigint() - begun + 500n) / 1000n} ${result}`);
    }
})();
