// Fleche in VS Code: starts the server for `.v` files, and shows the goals at the cursor in an output channel. Errors and outline are by
// VS Code's own means. `npm install` in this folder brings the client's library. Not tested: the repository's tests drive Neovim and Emacs.
const { commands, window, workspace } = require('vscode');
const { LanguageClient } = require('vscode-languageclient/node');

let client;
let goals;

// The lines that show a goal: its hypotheses, the oldest first, a rule, its type.
function goalLines(goal) {
  const hyps = goal.hyps.map((hyp) => `${hyp.names.join(' ')} : ${hyp.ty}${hyp.def ? ` := ${hyp.def}` : ''}`);
  return [...hyps, '='.repeat(30), goal.ty, ''];
}

// The lines that show an answer to `proof/goals`.
function answerLines(answer) {
  const shown = answer.goals;
  if (!shown) return ['No proof is under way.'];
  if (shown.goals.length === 0) return ['No goal is in focus.'];
  return shown.goals.flatMap(goalLines);
}

async function showGoals() {
  const editor = window.activeTextEditor;
  if (!editor || editor.document.languageId !== 'fleche') return;
  const { line, character } = editor.selection.active;
  try {
    const answer = await client.sendRequest('proof/goals', {
      textDocument: { uri: editor.document.uri.toString() },
      position: { line, character },
    });
    goals.clear();
    goals.append(answerLines(answer).join('\n'));
  } catch (error) {
    // The text has changed since, so another request is on its way.
  }
}

exports.activate = async (context) => {
  const command = workspace.getConfiguration('fleche').get('program');
  const server = { command, args: ['serve'] };
  client = new LanguageClient('fleche', 'Fleche', server, { documentSelector: [{ language: 'fleche' }] });
  goals = window.createOutputChannel('Fleche goals');
  await client.start();
  context.subscriptions.push(
    goals,
    client,
    window.onDidChangeTextEditorSelection(showGoals),
    commands.registerCommand('fleche.goals', () => {
      goals.show(true);
      return showGoals();
    }),
  );
};
