// A client of the language server recw-lsp, with no other modules than those of node and of the editor.
'use strict';
const { spawn } = require('child_process');
const vscode = require('vscode');

const LANGUAGE = 'rec';
const MOST_STARTS = 5;          // of a server that ends by itself, within some minutes
const MINUTES = 3;
const SYMBOL_BEFORE = 1;        // kinds count from 1 in the protocol, and from 0 in the editor
const { Range, Location, WorkspaceEdit } = vscode;

const rangeOf = (it) => new Range(it.start.line, it.start.character, it.end.line, it.end.character);
const placeOf = (it) => ({ line: it.line, character: it.character });
const spanOf = (it) => ({ start: placeOf(it.start), end: placeOf(it.end) });
const locationOf = (it) => new Location(vscode.Uri.parse(it.uri), rangeOf(it.range));
const relatedOf = (it) => new vscode.DiagnosticRelatedInformation(locationOf(it.location), it.message);
const isOurs = (document) => document.languageId === LANGUAGE;

// A process that is sent messages of JSON with their lengths.
class Connection {
  constructor(command, args, notified, ended) {
    this.waiting = new Map();
    this.number = 0;
    this.data = Buffer.alloc(0);
    this.notified = notified;
    this.process = spawn(command, args, { stdio: ['pipe', 'pipe', 'ignore'] });
    this.process.stdin.on('error', () => {});
    this.process.stdout.on('data', (data) => this.take(data));
    const end = (error) => {
      for (const { reject } of this.waiting.values()) reject(new Error('the language server ended'));
      this.waiting.clear();
      if (this.notified) ended(error instanceof Error ? error.message : '');
      this.notified = null;
    };
    this.process.on('error', end);
    this.process.on('exit', end);
  }

  take(data) {
    this.data = Buffer.concat([this.data, data]);
    for (;;) {
      const head = this.data.indexOf('\r\n\r\n');
      if (head < 0) return;
      const length = Number(/content-length: *(\d+)/i.exec(this.data.toString('ascii', 0, head))[1]);
      if (this.data.length < head + 4 + length) return;
      const message = JSON.parse(this.data.toString('utf8', head + 4, head + 4 + length));
      this.data = this.data.subarray(head + 4 + length);
      this.receive(message);
    }
  }

  receive(message) {
    if (message.method) {
      if (this.notified) this.notified(message.method, message.params);
      return;
    }
    const { resolve, reject } = this.waiting.get(message.id) || {};
    this.waiting.delete(message.id);
    if (message.error && reject) reject(new Error(message.error.message));
    else if (resolve) resolve(message.result);
  }

  send(message) {
    const data = Buffer.from(JSON.stringify({ jsonrpc: '2.0', ...message }));
    this.process.stdin.write(`Content-Length: ${data.length}\r\n\r\n`);
    this.process.stdin.write(data);
  }

  tell(method, params) { this.send({ method, params }); }

  ask(method, params, token) {
    const id = ++this.number;
    this.send({ id, method, params });
    if (token) token.onCancellationRequested(() => this.tell('$/cancelRequest', { id }));
    return new Promise((resolve, reject) => this.waiting.set(id, { resolve, reject }));
  }

  // Lets the server end; one that is still there after a second is killed.
  end() {
    this.notified = null;
    this.ask('shutdown').catch(() => {});
    this.tell('exit');
    const late = setTimeout(() => this.process.kill(), 1000);
    this.process.on('exit', () => clearTimeout(late));
  }
}

// The server of this window: it is started anew if it ends by itself.
class Client {
  constructor(server, program) {
    this.words = [server, ['--recw', program]];
    this.starts = [];
    this.found = vscode.languages.createDiagnosticCollection('recw');
    this.start();
  }

  start() {
    this.starts = this.starts.filter((it) => it > Date.now() - MINUTES * 60000);
    if (this.starts.push(Date.now()) > MOST_STARTS) {
      vscode.window.showErrorMessage(`${this.words[0]} ended ${MOST_STARTS} times and is not started again`);
      return;
    }
    const server = new Connection(...this.words, (...it) => this.notified(...it), (why) => this.ended(why));
    this.server = server;
    const textDocument = {
      hover: { contentFormat: ['markdown'] },
      documentSymbol: { hierarchicalDocumentSymbolSupport: true },
      publishDiagnostics: { relatedInformation: true },
      signatureHelp: { signatureInformation: { parameterInformation: { labelOffsetSupport: true } } },
    };
    this.ready = server.ask('initialize', { processId: process.pid, rootUri: null, capabilities: { textDocument } });
    this.ready.then(() => {
      server.tell('initialized', {});
      vscode.workspace.textDocuments.forEach((it) => this.open(it));
    }, () => {});
  }

  ended(why) {
    this.found.clear();
    if (why) vscode.window.showErrorMessage(`${this.words[0]} cannot be started: ${why}`);
    else this.start();
  }

  notified(method, params) {
    if (method === 'window/showMessage') vscode.window.showWarningMessage(params.message);
    if (method !== 'textDocument/publishDiagnostics') return;
    const found = params.diagnostics.map((it) => {
      const made = new vscode.Diagnostic(rangeOf(it.range), it.message, it.severity - 1);
      const relatedInformation = (it.relatedInformation || []).map(relatedOf);
      return Object.assign(made, { code: it.code, source: it.source, tags: it.tags, relatedInformation });
    });
    this.found.set(vscode.Uri.parse(params.uri), found);
  }

  tell(method, params) { this.ready.then(() => this.server.tell(method, params), () => {}); }

  open(document) {
    if (!isOurs(document)) return;
    const { languageId, version } = document;
    const textDocument = { uri: document.uri.toString(), languageId, version, text: document.getText() };
    this.tell('textDocument/didOpen', { textDocument });
  }

  change({ document, contentChanges }) {
    if (!isOurs(document) || !contentChanges.length) return;
    const textDocument = { uri: document.uri.toString(), version: document.version };
    const changes = contentChanges.map((it) => ({ range: spanOf(it.range), text: it.text }));
    this.tell('textDocument/didChange', { textDocument, contentChanges: changes });
  }

  close(document) {
    if (isOurs(document)) this.tell('textDocument/didClose', { textDocument: { uri: document.uri.toString() } });
  }

  // The answer to a request about a document, and what the editor takes for it.
  async about(method, document, token, more, made) {
    await this.ready;
    const params = { textDocument: { uri: document.uri.toString() }, ...more };
    const answer = await this.server.ask(`textDocument/${method}`, params, token);
    return answer ? made(answer) : undefined;
  }

  dispose() {
    this.server.end();
    this.found.dispose();
  }
}

function editOf(answer) {
  const edit = new WorkspaceEdit();
  for (const [uri, edits] of Object.entries(answer.changes)) {
    for (const it of edits) edit.replace(vscode.Uri.parse(uri), rangeOf(it.range), it.newText);
  }
  return edit;
}

function symbolOf(it) {
  const places = [rangeOf(it.range), rangeOf(it.selectionRange)];
  const made = new vscode.DocumentSymbol(it.name, it.detail || '', it.kind - SYMBOL_BEFORE, ...places);
  made.children = (it.children || []).map(symbolOf);
  return made;
}

function itemOf(it) {
  const made = new vscode.CompletionItem(it.label, it.kind - SYMBOL_BEFORE);
  const { detail, sortText, textEdit: { range, newText } } = it;
  return Object.assign(made, { detail, sortText, insertText: newText, range: rangeOf(range) });
}

function helpOf({ signatures, activeSignature, activeParameter }) {
  const made = new vscode.SignatureHelp();
  made.signatures = signatures.map(({ label, documentation, parameters }) => {
    const signature = new vscode.SignatureInformation(label, documentation);
    signature.parameters = parameters.map((it) => new vscode.ParameterInformation(it.label));
    return signature;
  });
  return Object.assign(made, { activeSignature, activeParameter });
}

function actionOf(it) {
  const made = new vscode.CodeAction(it.title, vscode.CodeActionKind.QuickFix);
  return Object.assign(made, { edit: editOf(it.edit) });
}

const hoverOf = (it) => new vscode.Hover(new vscode.MarkdownString(it.contents.value), rangeOf(it.range));
const highlightOf = (it) => new vscode.DocumentHighlight(rangeOf(it.range), it.kind - 1);
const preparedOf = (it) => ({ range: rangeOf(it.range), placeholder: it.placeholder });
const lensOf = (it) => new vscode.CodeLens(rangeOf(it.range), { title: it.command.title, command: '' });
const all = (made) => (answer) => answer.map(made);

// Registers what the editor asks for, and returns what ends it.
function providers(client, legend) {
  const at = (position) => ({ position: placeOf(position) });
  const { languages: them } = vscode;
  const ask = (method, document, token, more, made) => client.about(method, document, token, more, made);
  return [
    them.registerHoverProvider(LANGUAGE, { provideHover: (d, p, t) => ask('hover', d, t, at(p), hoverOf) }),
    them.registerDefinitionProvider(LANGUAGE, {
      provideDefinition: (d, p, t) => ask('definition', d, t, at(p), locationOf),
    }),
    them.registerReferenceProvider(LANGUAGE, {
      provideReferences: (d, p, context, t) => ask('references', d, t, { ...at(p), context }, all(locationOf)),
    }),
    them.registerDocumentHighlightProvider(LANGUAGE, {
      provideDocumentHighlights: (d, p, t) => ask('documentHighlight', d, t, at(p), all(highlightOf)),
    }),
    them.registerRenameProvider(LANGUAGE, {
      prepareRename: (d, p, t) => ask('prepareRename', d, t, at(p), preparedOf),
      provideRenameEdits: (d, p, newName, t) => ask('rename', d, t, { ...at(p), newName }, editOf),
    }),
    them.registerDocumentSymbolProvider(LANGUAGE, {
      provideDocumentSymbols: (d, t) => ask('documentSymbol', d, t, {}, all(symbolOf)),
    }),
    them.registerCompletionItemProvider(LANGUAGE, {
      provideCompletionItems: (d, p, t) => ask('completion', d, t, at(p), all(itemOf)),
    }),
    them.registerSignatureHelpProvider(LANGUAGE, {
      provideSignatureHelp: (d, p, t) => ask('signatureHelp', d, t, at(p), helpOf),
    }, '(', ','),
    them.registerCodeActionsProvider(LANGUAGE, {
      provideCodeActions: (d, range, _, t) =>
        ask('codeAction', d, t, { range: spanOf(range), context: { diagnostics: [] } }, all(actionOf)),
    }),
    them.registerCodeLensProvider(LANGUAGE, { provideCodeLenses: (d, t) => ask('codeLens', d, t, {}, all(lensOf)) }),
    them.registerDocumentSemanticTokensProvider(LANGUAGE, {
      provideDocumentSemanticTokens: (d, t) =>
        ask('semanticTokens/full', d, t, {}, (it) => new vscode.SemanticTokens(Uint32Array.from(it.data))),
    }, new vscode.SemanticTokensLegend(legend.tokenTypes, legend.tokenModifiers)),
  ];
}

// Starts a server, and returns a promise of its client.
exports.start = async (context, server, program) => {
  const client = new Client(server, program);
  context.subscriptions.push(
    client,
    vscode.workspace.onDidOpenTextDocument((it) => client.open(it)),
    vscode.workspace.onDidChangeTextDocument((it) => client.change(it)),
    vscode.workspace.onDidCloseTextDocument((it) => client.close(it)),
  );
  const { capabilities } = await client.ready;
  context.subscriptions.push(...providers(client, capabilities.semanticTokensProvider.legend));
  return client;
};
