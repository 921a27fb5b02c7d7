// Starts the language server of the checkout that this folder belongs to, for traits and proof scripts, and shows the goal
// at the cursor of a script.
const fs = require("fs");
const path = require("path");
const { commands, window, workspace } = require("vscode");

const CLIENT = "vscode-languageclient";
let client;

// The class of clients, or nothing, and then it is said what is to be done.
const clientClass = () => {
  try {
    return require(`${CLIENT}/node`).LanguageClient;
  } catch (missing) {
    window.showErrorMessage(`larch: colours alone, since ${CLIENT} isn't there: run npm install in ${__dirname}`);
    return undefined;
  }
};

// The channel that shows, for the cursor of a script, what is left behind its line.
const showGoals = (context) => {
  const channel = window.createOutputChannel("Larch goal");
  const show = async (editor) => {
    if (!editor || editor.document.languageId !== "lp") return;
    const { line, character } = editor.selection.active;
    const textDocument = { uri: editor.document.uri.toString() };
    const found = await client.sendRequest("larch/goal", { textDocument, position: { line, character } });
    channel.replace(`${(found ? found.lines : ["no block here"]).join("\n")}\n`);
  };
  context.subscriptions.push(
    channel,
    commands.registerCommand("larch.goal", () => { channel.show(true); return show(window.activeTextEditor); }),
    window.onDidChangeTextEditorSelection((change) => show(change.textEditor)),
    window.onDidChangeActiveTextEditor(show),
  );
};

exports.activate = (context) => {
  const LanguageClient = clientClass();
  if (!LanguageClient) return undefined;
  const settings = workspace.getConfiguration("larch");
  const command = settings.get("server") || path.join(fs.realpathSync(__dirname), "..", "larch-lsp");
  const program = settings.get("program");
  const server = { command, args: program ? ["--larch", program] : [] };
  client = new LanguageClient("larch", "Larch", server, {
    documentSelector: [{ scheme: "file", language: "lsl" }, { scheme: "file", language: "lp" }],
    initializationOptions: { hints: settings.get("hints") },
  });
  showGoals(context);
  return client.start();
};

exports.deactivate = () => client && client.stop();
