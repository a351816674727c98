// of_vscode.js LAB TEXT: runs the extension for VS Code over a stand-in for the module `vscode`, with the program LAB and a
// source text in a file, and prints what the editor would show, a JSON object.
'use strict';

const fs = require('fs');
const path = require('path');
const Module = require('module');

const standIn = path.join(__dirname, 'vscode.js');
const resolve = Module._resolveFilename;
Module._resolveFilename = (name, ...rest) => (name === 'vscode' ? standIn : resolve(name, ...rest));
const vscode = require('vscode');
const extension = require(path.join(__dirname, '../../editors/vscode/extension.js'));

const [lab, file] = process.argv.slice(2);
let text = fs.readFileSync(file, 'utf8');
const document = {
  uri: vscode.Uri.parse(`file://${file}`), languageId: 'mta', version: 1, getText: () => text, save: async () => true,
};
const { seen } = vscode;

/** Resolves when the diagnostics that hold are these many. */
const diagnosed = count => new Promise((done, fail) => {
  const look = () => {
    const found = seen.diagnostics.get(document.uri.toString());
    if (found && found.length === count) done(found);
  };
  seen.listeners.diagnostics = look;
  setTimeout(() => fail(new Error('no diagnostics')), 20000).unref();
  look();
});

/** The place of a word of the text. */
const placeOf = (word, from = 0) => {
  const front = text.slice(0, text.indexOf(word, text.indexOf('again:') * from)).split('\n');
  return new vscode.Position(front.length - 1, front.at(-1).length);
};

/** The text after an edit, of which the server hears. */
const write = ({ range, newText }) => {
  const at = place => text.split('\n').slice(0, place.line).join('\n').length + (place.line > 0) + place.character;
  text = text.slice(0, at(range.start)) + newText + text.slice(at(range.end));
  document.version += 2;
  seen.listeners.change({ document, contentChanges: [{}] });
};

async function main() {
  vscode.settings.program = lab;
  vscode.workspace.textDocuments.push(document);
  const context = { subscriptions: [] };
  await extension.activate(context);
  const out = { first: (await diagnosed(2)).map(it => [it.range.start.line, it.range.start.character, it.severity, it.code]) };
  const ask = (name, method, ...rest) => seen.providers[`register${name}Provider`][method](document, ...rest);
  out.hover = (await ask('Hover', 'provideHover', placeOf('LIT'))).contents.value.split('\n')[0];
  out.nothing = await ask('Hover', 'provideHover', placeOf('r1'));
  out.completed = (await ask('CompletionItem', 'provideCompletionItems', placeOf('NE'))).map(it => it.insertText);
  const place = placeOf('again', 1);
  out.definition = (await ask('Definition', 'provideDefinition', place)).range.start;
  out.references = (await ask('Reference', 'provideReferences', place, { includeDeclaration: true })).length;
  out.symbols = (await ask('DocumentSymbol', 'provideDocumentSymbols')).map(it => it.name);
  out.refused = await ask('Rename', 'provideRenameEdits', place, 'once').catch(error => error.message);
  const [fix] = await ask('CodeActions', 'provideCodeActions', new vscode.Range(placeOf('QUITE'), placeOf('QUITE')));
  out.fix = [fix.title, fix.kind, fix.diagnostics.map(it => it.code)];
  fix.edit.edits.forEach(write);
  out.mended = (await diagnosed(1)).map(it => it.code);
  write({ range: new vscode.Range(placeOf('QUIT'), placeOf('QUIT')), newText: 'x' });
  await diagnosed(2);
  write({ range: new vscode.Range(placeOf('xQUIT'), placeOf('QUIT')), newText: '' });
  out.then = (await diagnosed(1)).map(it => it.code);
  out.renamed = (await ask('Rename', 'provideRenameEdits', place, 'once')).edits.length;
  out.formatted = (await ask('DocumentFormattingEdit', 'provideDocumentFormattingEdits')).length;
  vscode.window.activeTextEditor = { document };
  await seen.commands['mta.explore']();
  await seen.commands['mta.page']();
  await seen.commands['mta.tasks']();
  const folder = path.dirname(file);
  const tasks = path.join(folder, '.vscode', 'tasks.json');
  vscode.workspace.workspaceFolders = [{ uri: vscode.Uri.parse(`file://${folder}`) }];
  await seen.commands['mta.tasks']();
  out.tasks = JSON.parse(fs.readFileSync(tasks, 'utf8')).tasks.map(it => [it.command === lab, it.args, it.problemMatcher]);
  fs.writeFileSync(tasks, 'mine');
  await seen.commands['mta.tasks']();
  out.mine = [fs.readFileSync(tasks, 'utf8'), seen.shown.map(it => path.relative(folder, it))];
  out.sent = seen.sent.map(words => words.replaceAll(lab, 'LAB').replaceAll(path.dirname(file), ''));
  seen.listeners.close(document);
  await diagnosed(0);
  await extension.deactivate();
  out.warnings = seen.warnings;
  console.log(JSON.stringify(out));
}

/** What is said where there is no program. */
async function missing() {
  vscode.settings.program = lab;
  await extension.activate({ subscriptions: [] });
  await extension.deactivate();
  console.log(JSON.stringify({ warnings: seen.warnings, commands: Object.keys(seen.commands) }));
}

(fs.existsSync(lab) ? main() : missing()).catch(error => { console.error(error); process.exit(1); });
