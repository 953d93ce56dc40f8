// For the scripts of the pages, python/src/canbusd/_page/: scripts/lint-pages lints those of a page in a row.
module.exports = {
  root: true,
  env: { browser: true, es6: true },
  parserOptions: { ecmaVersion: 2021, sourceType: "script" },
  extends: "eslint:recommended",
  // Newer than the linter's list of what browsers have.
  globals: { DecompressionStream: "readonly", frames: "writable", print: "writable" },
  rules: {
    // A page has its own `find`, `frames`, `print` and `valueOf` in place of the browser's.
    "no-redeclare": ["error", { builtinGlobals: false }],
    // What one page shares with another need not be used in both.
    "no-unused-vars": ["error", { vars: "local" }],
    "no-var": "error",
    "prefer-const": "error",
    eqeqeq: "error",
  },
};
