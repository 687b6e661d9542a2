// Runs the cases in node: each in a page of its own. Usage: node run.js PAGE.html STAND.js CASES.js [NAME], where all three have the page's
// short names. A line for each case, in JSON.
const fs = require("fs"), path = require("path"), vm = require("vm"), { performance: clock } = require("perf_hooks");
const html = fs.readFileSync(process.argv[2], "utf8"), stand = fs.readFileSync(process.argv[3], "utf8"), cases = fs.readFileSync(process.argv[4], "utf8");
const dom = fs.readFileSync(path.join(__dirname, "dom.js"), "utf8");
const script = [dom, stand, /<script>([^]*)<\/script>/.exec(html)[1].replace('"use strict";', ""), cases].join("\n");

function page() {
  const timers = new Set(), keep = timer => (timers.add(timer), timer);
  const context = vm.createContext({
    HTML: html, performance: { now: () => clock.now() }, AbortSignal, console, setTimeout: (act, ms) => keep(setTimeout(act, ms)), clearTimeout, setInterval: (act, ms) => keep(setInterval(act, ms)), history: { replaceState() {} },
  });
  return { run: text => vm.runInContext(text, context), end: () => timers.forEach(timer => clearTimeout(timer)) };
}

async function main() {
  const first = page();
  const names = JSON.parse(first.run(script + ";JSON.stringify(CASES.map(([name]) => name))"));
  first.end();
  const chosen = names.map((name, at) => [name, at]).filter(([name]) => !process.argv[5] || name.includes(process.argv[5]));
  const tried = async place => {
    const one = page();
    one.run(script);
    const line = await one.run("runCase(" + place + ")");
    one.end();
    return line;
  };
  const failed = [];
  for (let at = 0; at < chosen.length; at += 12) {
    const part = chosen.slice(at, at + 12), lines = await Promise.all(part.map(([, place]) => tried(place)));
    lines.forEach((line, of) => process.argv[5] || JSON.parse(line).ok ? console.log(line) : failed.push(part[of][1]));
  }
  // Twelve at once on a busy machine may take longer than the page waits: what failed is tried by itself.
  for (const place of failed) {
    const line = await tried(place);
    console.log(JSON.parse(line).ok ? line : await tried(place));
  }
  process.exit(0);
}

main();
