// The extension's client of `mta_lab lsp`, and its commands in a terminal. It stands on nothing but Node and VS Code.
'use strict';

const { spawn } = require('child_process');
const vscode = require('vscode');

const LANGUAGE = 'mta';
const MISSING = 'mta_lab is not on the PATH: source texts have colours, and no messages';

/** A session with the server: requests with their answers, and what the server tells. */
class Session {
  constructor(program, told, failed) {
    this.next = 1;
    this.waiting = new Map();
    this.bytes = Buffer.alloc(0);
    this.ended = false;
    this.process = spawn(program, ['lsp']);
    this.process.on('error', () => this.end(failed));
    this.process.on('exit', () => this.end());
    this.process.stdin.on('error', () => this.end());
    this.process.stdout.on('data', bytes => this.take(bytes, told));
  }

  /** Nothing is answered any more. */
  end(failed) {
    if (this.ended) return;
    this.ended = true;
    for (const { fail } of this.waiting.values()) fail(new Error('mta_lab has ended'));
    this.waiting.clear();
    if (failed) failed();
  }

  send(message) {
    if (this.ended) return;
    const body = Buffer.from(JSON.stringify({ jsonrpc: '2.0', ...message }));
    this.process.stdin.write(`Content-Length: ${body.length}\r\n\r\n`);
    this.process.stdin.write(body);
  }

  notify(method, params) {
    this.send({ method, params });
  }

  ask(method, params) {
    if (this.ended) return Promise.reject(new Error('mta_lab has ended'));
    return new Promise((done, fail) => {
      const id = this.next++;
      this.waiting.set(id, { done, fail });
      this.send({ id, method, params });
    });
  }

  /** Takes bytes in, which may end within a message. */
  take(bytes, told) {
    this.bytes = Buffer.concat([this.bytes, bytes]);
    for (;;) {
      const end = this.bytes.indexOf('\r\n\r\n');
      if (end < 0) return;
      const length = Number(/Content-Length: (\d+)/i.exec(this.bytes.toString('ascii', 0, end))[1]);
      if (this.bytes.length < end + 4 + length) return;
      const message = JSON.parse(this.bytes.toString('utf8', end + 4, end + 4 + length));
      this.bytes = this.bytes.subarray(end + 4 + length);
      if (message.method) told(message);
      else this.answered(message);
    }
  }

  answered({ id, result, error }) {
    const asked = this.waiting.get(id);
    this.waiting.delete(id);
    if (asked && error) asked.fail(new Error(error.message));
    else if (asked) asked.done(result);
  }
}

const positionOf = at => new vscode.Position(at.line, at.character);
const rangeOf = at => new vscode.Range(positionOf(at.start), positionOf(at.end));
const locationOf = at => at && new vscode.Location(vscode.Uri.parse(at.uri), rangeOf(at.range));
const documentOf = document => ({ textDocument: { uri: document.uri.toString() } });
const placeOf = (document, at) => ({ ...documentOf(document), position: { line: at.line, character: at.character } });

function workspaceEditOf(edit) {
  const whole = new vscode.WorkspaceEdit();
  for (const [uri, edits] of Object.entries(edit.changes))
    for (const one of edits) whole.replace(vscode.Uri.parse(uri), rangeOf(one.range), one.newText);
  return whole;
}

function diagnosticOf(told) {
  const diagnostic = new vscode.Diagnostic(rangeOf(told.range), told.message, told.severity - 1);
  diagnostic.source = told.source;
  diagnostic.code = told.code;
  diagnostic.tags = told.tags;
  diagnostic.relatedInformation = (told.relatedInformation || []).map(it =>
    new vscode.DiagnosticRelatedInformation(locationOf(it.location), it.message));
  return diagnostic;
}

/** A way to mend a text. */
function fixOf(told) {
  const fix = new vscode.CodeAction(told.title, vscode.CodeActionKind.QuickFix);
  fix.edit = workspaceEditOf(told.edit);
  fix.diagnostics = told.diagnostics.map(diagnosticOf);
  return fix;
}

/** What the editor asks, each answered by the server. */
function providers(session) {
  const register = (what, ...rest) => vscode.languages[`register${what}Provider`]({ language: LANGUAGE }, ...rest);
  const ask = (method, params) => session.ask(`textDocument/${method}`, params);
  return [
    register('Hover', {
      provideHover: async (document, at) => {
        const found = await ask('hover', placeOf(document, at));
        return found && new vscode.Hover(new vscode.MarkdownString().appendCodeblock(found.contents.value, 'plaintext'));
      },
    }),
    register('CompletionItem', {
      provideCompletionItems: async (document, at) =>
        (await ask('completion', placeOf(document, at))).items.map(it =>
          Object.assign(new vscode.CompletionItem(it.label, it.kind - 1),
            { range: rangeOf(it.textEdit.range), insertText: it.textEdit.newText })),
    }, '.'),
    register('Definition', {
      provideDefinition: async (document, at) => locationOf(await ask('definition', placeOf(document, at))),
    }),
    register('Reference', {
      provideReferences: async (document, at, context) =>
        (await ask('references', { ...placeOf(document, at), context })).map(locationOf),
    }),
    register('Rename', {
      provideRenameEdits: async (document, at, newName) =>
        workspaceEditOf(await ask('rename', { ...placeOf(document, at), newName })),
    }),
    register('DocumentSymbol', {
      provideDocumentSymbols: async document =>
        (await ask('documentSymbol', documentOf(document))).map(it =>
          new vscode.DocumentSymbol(it.name, it.detail, it.kind - 1, rangeOf(it.range), rangeOf(it.selectionRange))),
    }),
    register('DocumentFormattingEdit', {
      provideDocumentFormattingEdits: async document =>
        (await ask('formatting', { ...documentOf(document), options: {} })).map(it =>
          vscode.TextEdit.replace(rangeOf(it.range), it.newText)),
    }),
    register('CodeActions', {
      provideCodeActions: async (document, range) => {
        const { start, end } = range;
        const lines = { start: { line: start.line, character: start.character }, end: { line: end.line, character: end.character } };
        return (await ask('codeAction', { ...documentOf(document), range: lines, context: { diagnostics: [] } })).map(fixOf);
      },
    }, { providedCodeActionKinds: [vscode.CodeActionKind.QuickFix] }),
  ];
}

/** Tells the server of the texts that are open, and of each change. */
function documents(session) {
  const isSource = document => document.languageId === LANGUAGE;
  const open = document => isSource(document) && session.notify('textDocument/didOpen', {
    textDocument: { uri: document.uri.toString(), languageId: LANGUAGE, version: document.version, text: document.getText() },
  });
  vscode.workspace.textDocuments.forEach(open);
  return [
    vscode.workspace.onDidOpenTextDocument(open),
    vscode.workspace.onDidCloseTextDocument(document => isSource(document) && session.notify('textDocument/didClose', documentOf(document))),
    vscode.workspace.onDidChangeTextDocument(({ document, contentChanges }) =>
      isSource(document) && contentChanges.length > 0 && session.notify('textDocument/didChange', {
        textDocument: { uri: document.uri.toString(), version: document.version },
        contentChanges: [{ text: document.getText() }],
      })),
  ];
}

/** A word as a shell takes it whole. */
const quoted = word => `'${word.replaceAll("'", "'\\''")}'`;

/** The commands on the open file, each in the terminal. */
const COMMANDS = {
  check: file => `check ${file}`,
  survey: file => `survey ${file}`,
  explore: file => `explore ${file}`,
  page: (file, stem) => `page ${file} --out ${stem}.html`,
  play: (file, stem) => `play ${file} --out ${stem}.play.html`,
};

function commands(program) {
  return Object.entries(COMMANDS).map(([name, words]) =>
    vscode.commands.registerCommand(`mta.${name}`, async () => {
      const editor = vscode.window.activeTextEditor;
      if (!editor || editor.document.languageId !== LANGUAGE) return;
      await editor.document.save();
      const path = editor.document.uri.fsPath;
      const terminal = vscode.window.terminals.find(it => it.name === 'mta_lab') || vscode.window.createTerminal('mta_lab');
      terminal.show(true);
      terminal.sendText(`${quoted(program)} ${words(quoted(path), quoted(path.replace(/\.(asm|mta)$/, '')))}`);
    }));
}

/** The task by which the editor checks the open file. */
const tasksOf = program => ({
  version: '2.0.0',
  tasks: [{
    label: 'check', type: 'process', command: program, args: ['check', '${file}'], problemMatcher: '$mta_lab',
    group: { kind: 'build', isDefault: true },
  }],
});

/** Opens the folder's tasks.json, which is made first where there is none. */
function tasksCommand(program) {
  return vscode.commands.registerCommand('mta.tasks', async () => {
    const [folder] = vscode.workspace.workspaceFolders || [];
    if (!folder) {
      vscode.window.showWarningMessage('open a folder first: its tasks are in .vscode/tasks.json');
      return;
    }
    const file = vscode.Uri.joinPath(folder.uri, '.vscode', 'tasks.json');
    try {
      await vscode.workspace.fs.stat(file);
    } catch {
      await vscode.workspace.fs.writeFile(file, Buffer.from(`${JSON.stringify(tasksOf(program), null, 2)}\n`));
    }
    await vscode.window.showTextDocument(file);
  });
}

let session;

exports.activate = async context => {
  const program = vscode.workspace.getConfiguration('mta').get('program', 'mta_lab');
  const faults = vscode.languages.createDiagnosticCollection(LANGUAGE);
  context.subscriptions.push(faults, ...commands(program), tasksCommand(program));
  session = new Session(program,
    ({ method, params }) => method === 'textDocument/publishDiagnostics'
      && faults.set(vscode.Uri.parse(params.uri), params.diagnostics.map(diagnosticOf)),
    () => vscode.window.showWarningMessage(MISSING));
  try {
    await session.ask('initialize', { processId: process.pid, rootUri: null, capabilities: {} });
  } catch {
    return;
  }
  session.notify('initialized', {});
  context.subscriptions.push(...providers(session), ...documents(session));
};

exports.deactivate = async () => {
  if (session.ended) return;
  await session.ask('shutdown');
  session.notify('exit');
};
