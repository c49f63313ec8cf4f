// The extension of Visual Studio Code with a stand-in for that editor: node code_client.js FOLDER SERVER RECW SPEC. It
// asks for everything that the extension provides, and prints the answers as JSON.
'use strict';
const [, , folder, server, recw, spec] = process.argv;
const Module = require('module'), fs = require('fs');
const load = Module._load;
class Position { constructor(line, character) { Object.assign(this, { line, character }); } }
class Range {
  constructor(...at) { [this.start, this.end] = [new Position(at[0], at[1]), new Position(at[2], at[3])]; }
}
const record = (...names) => class {
  constructor(...values) { names.forEach((name, index) => { this[name] = values[index]; }); }
};
const listeners = {}, provided = {}, shown = [];
const listen = (name) => (it) => { listeners[name] = it; return { dispose() {} }; };
const register = (name) => (language, provider, legend) => {
  provided[name] = { language, provider, legend };
  return { dispose() {} };
};
let text = fs.readFileSync(spec, 'utf8'), found = null, related = null;
const uri = { toString: () => 'file:///spec.rec' };
const document = { uri, languageId: 'rec', version: 1, getText: () => text };
const other = { ...document, languageId: 'c', uri: { toString: () => 'file:///c' } };
const edits = [];
const collection = {
  set: (at, list) => {
    found = list.map((it) => [it.code, it.severity, it.range]);
    related = list.map((it) => it.relatedInformation.map((one) => [one.message, one.location.range.start]));
  },
  clear() {},
  dispose() {},
};
const kinds = ['Hover', 'Definition', 'Reference', 'DocumentHighlight', 'Rename', 'DocumentSymbol', 'CompletionItem'];
kinds.push('CodeLens', 'DocumentSemanticTokens', 'SignatureHelp', 'CodeActions');
const vscode = {
  Position, Range,
  Location: record('uri', 'range'), Hover: record('contents', 'range'), MarkdownString: record('value'),
  DocumentHighlight: record('range', 'kind'), Diagnostic: record('range', 'message', 'severity'),
  DocumentSymbol: record('name', 'detail', 'kind', 'range', 'selectionRange'), CodeLens: record('range', 'command'),
  CompletionItem: record('label', 'kind'),
  DiagnosticRelatedInformation: record('location', 'message'), SignatureHelp: record(),
  SignatureInformation: record('label', 'documentation'), ParameterInformation: record('label'),
  CodeAction: record('title', 'kind'), CodeActionKind: { QuickFix: 'quickfix' },
  SemanticTokens: record('data'), SemanticTokensLegend: record('types', 'modifiers'),
  WorkspaceEdit: class { replace(at, range, now) { edits.push([range.start.line, range.start.character, now]); } },
  Uri: { parse: (it) => it },
  languages: {
    createDiagnosticCollection: () => collection,
    ...Object.fromEntries(kinds.map((it) => [`register${it}Provider`, register(it)])),
  },
  workspace: {
    getConfiguration: () => ({ get: (key) => ({ languageServer: server, path: recw })[key] }),
    textDocuments: [document, other],
    onDidOpenTextDocument: listen('open'),
    onDidChangeTextDocument: listen('change'),
    onDidCloseTextDocument: listen('close'),
  },
  window: { showWarningMessage: (it) => shown.push(it), showErrorMessage: (it) => shown.push(it) },
  tasks: { registerTaskProvider: () => ({ dispose() {} }) },
};
Module._load = (name, ...more) => (name === 'vscode' ? vscode : load(name, ...more));
const context = { subscriptions: [] };
const pause = () => new Promise((go) => setTimeout(go, 25));
async function until(holds) {
  for (let it = 0; it < 400 && !holds(); it++) await pause();
}
(async () => {
  const client = await require(folder).activate(context);
  const out = {};
  await until(() => found);
  out.first = found;
  const token = { onCancellationRequested() {} }, at = new Position(11, 3);
  const of = (name) => provided[name].provider;
  out.hover = (await of('Hover').provideHover(document, at, token)).contents.value;
  out.none = await of('Hover').provideHover(document, new Position(9, 1), token) === undefined;
  out.definition = (await of('Definition').provideDefinition(document, at, token)).range.start;
  const told = { includeDeclaration: true };
  const references = await of('Reference').provideReferences(document, at, told, token);
  out.references = references.map((it) => it.range.start.line);
  out.highlights = (await of('DocumentHighlight').provideDocumentHighlights(document, at, token)).map((it) => it.kind);
  out.prepared = (await of('Rename').prepareRename(document, at, token)).placeholder;
  await of('Rename').provideRenameEdits(document, at, 'add', token);
  out.edits = edits.splice(0);
  out.refused = await of('Rename').provideRenameEdits(document, at, 'z', token).catch((error) => error.message);
  const symbols = await of('DocumentSymbol').provideDocumentSymbols(document, token);
  out.symbols = symbols.map((it) => [it.name, it.children.length]);
  const completion = await of('CompletionItem').provideCompletionItems(document, at, token);
  out.completion = completion.map((it) => [it.label, it.kind]);
  out.lenses = (await of('CodeLens').provideCodeLenses(document, token)).map((it) => it.command.title);
  const { signatures: [help], activeParameter } =
    await of('SignatureHelp').provideSignatureHelp(document, new Position(11, 12), token);
  out.help = [help.label, help.documentation, help.parameters.map((it) => it.label), activeParameter];
  out.tokens = (await of('DocumentSemanticTokens').provideDocumentSemanticTokens(document, token)).data.length;
  found = null;
  const change = { range: new Range(11, 2, 11, 6), text: 'pls' };
  text = text.replace('plus(s(X)', 'pls(s(X)');
  document.version = 2;
  listeners.change({ document, contentChanges: [change] });
  await until(() => found && found.length);
  out.second = found;
  const actions = await of('CodeActions').provideCodeActions(document, new Range(11, 3, 11, 3), {}, token);
  out.actions = actions.map((it) => [it.title, it.kind]);
  out.mended = edits.slice(0, 1);
  const closed = text;
  text = text.replace('z,Y) ->', 'z,Y ->');
  found = null;
  listeners.change({ document, contentChanges: [{ range: new Range(10, 10, 10, 11), text: '' }] });
  await until(() => found && found.length);
  out.related = related[0];
  text = closed;
  client.server.process.kill();
  found = null;
  await until(() => found && found.length);
  out.third = found;
  out.shown = shown;
  context.subscriptions.forEach((it) => it.dispose());
  const left = client.server.process;
  await until(() => left.exitCode !== null);
  out.status = left.exitCode;
  process.stdout.write(JSON.stringify(out));
})();
