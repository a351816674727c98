// What the extension for VS Code takes of the module `vscode`, as far as a test needs it: the same names, over texts that are
// kept here. tests/language_clients/of_vscode.js runs the extension over it.
'use strict';

const fs = require('fs').promises;
const path = require('path');

class Position {
  constructor(line, character) { Object.assign(this, { line, character }); }
}
class Range {
  constructor(start, end) { Object.assign(this, { start, end }); }
}
class Location {
  constructor(uri, range) { Object.assign(this, { uri, range }); }
}
class Uri {
  constructor(text) { this.text = text; }
  static parse(text) { return new Uri(text); }
  static joinPath(base, ...names) { return new Uri([base.text, ...names].join('/')); }
  toString() { return this.text; }
  get fsPath() { return this.text.replace('file://', ''); }
}
class Diagnostic {
  constructor(range, message, severity) { Object.assign(this, { range, message, severity }); }
}
class DiagnosticRelatedInformation {
  constructor(location, message) { Object.assign(this, { location, message }); }
}
class CodeAction {
  constructor(title, kind) { Object.assign(this, { title, kind }); }
}
class CompletionItem {
  constructor(label, kind) { Object.assign(this, { label, kind }); }
}
class DocumentSymbol {
  constructor(name, detail, kind, range, selectionRange) { Object.assign(this, { name, detail, kind, range, selectionRange }); }
}
class Hover {
  constructor(contents) { this.contents = contents; }
}
class MarkdownString {
  constructor() { this.value = ''; }
  appendCodeblock(text) { this.value += text; return this; }
}
class WorkspaceEdit {
  constructor() { this.edits = []; }
  replace(uri, range, newText) { this.edits.push({ uri, range, newText }); }
}

const listeners = {};
const listen = name => take => { listeners[name] = take; return { dispose() {} }; };

exports.seen = { providers: {}, diagnostics: new Map(), warnings: [], commands: {}, sent: [], shown: [], listeners };
exports.settings = {};
Object.assign(exports, {
  Position, Range, Location, Uri, Diagnostic, DiagnosticRelatedInformation, CodeAction, CompletionItem, DocumentSymbol, Hover,
  MarkdownString, WorkspaceEdit,
});
exports.CodeActionKind = { QuickFix: 'quickfix' };
exports.TextEdit = { replace: (range, newText) => ({ range, newText }) };
exports.languages = new Proxy({
  createDiagnosticCollection: () => ({
    set: (uri, list) => { exports.seen.diagnostics.set(uri.toString(), list); if (listeners.diagnostics) listeners.diagnostics(); },
    dispose() {},
  }),
}, {
  get: (own, name) => own[name] || ((_, provider) => { exports.seen.providers[name] = provider; return { dispose() {} }; }),
});
exports.window = {
  showWarningMessage: words => exports.seen.warnings.push(words),
  terminals: [],
  createTerminal: name => ({ name, show() {}, sendText: text => exports.seen.sent.push(text) }),
  showTextDocument: async uri => { exports.seen.shown.push(uri.fsPath); },
};
exports.commands = { registerCommand: (name, run) => { exports.seen.commands[name] = run; return { dispose() {} }; } };
exports.workspace = {
  textDocuments: [],
  // (VS Code makes the folders of a file that it writes)
  fs: {
    stat: uri => fs.stat(uri.fsPath),
    writeFile: async (uri, bytes) => {
      await fs.mkdir(path.dirname(uri.fsPath), { recursive: true });
      await fs.writeFile(uri.fsPath, bytes);
    },
  },
  getConfiguration: () => ({ get: (name, usual) => exports.settings[name] || usual }),
  onDidOpenTextDocument: listen('open'),
  onDidCloseTextDocument: listen('close'),
  onDidChangeTextDocument: listen('change'),
};
