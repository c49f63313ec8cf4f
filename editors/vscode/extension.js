// The task `recw: check`, which checks the file of the active editor, and whose lines become problems; and the language
// server, if the setting `recw.languageServer` names it.
'use strict';
const vscode = require('vscode');
const client = require('./client');

const setting = (name, value) => vscode.workspace.getConfiguration('recw').get(name, value);

function check(definition) {
  const folder = { cwd: '${workspaceFolder}' };
  const run = new vscode.ShellExecution(setting('path', 'recw'), ['check', '${relativeFile}'], folder);
  const task = new vscode.Task(definition, vscode.TaskScope.Workspace, 'check', 'recw', run, ['$recw']);
  task.group = vscode.TaskGroup.Build;
  return task;
}

exports.activate = (context) => {
  const provider = {
    provideTasks: () => [check({ type: 'recw', command: 'check' })],
    resolveTask: (task) => check(task.definition),
  };
  context.subscriptions.push(vscode.tasks.registerTaskProvider('recw', provider));
  const server = setting('languageServer', '');
  // that it cannot be started was shown
  return server ? client.start(context, server, setting('path', 'recw')).catch(() => {}) : undefined;
};
