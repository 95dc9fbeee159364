const { LanguageClient } = require("vscode-languageclient/node");

let client;
exports.activate = () => {
  const files = [{ pattern: "**/*.{script,lines,stack}" }, { pattern: "**/layout*/*.xml" }];
  client = new LanguageClient("vindaesk", "Vindaesk", { command: "vindaesk-language" }, { documentSelector: files });
  return client.start();
};
exports.deactivate = () => client && client.stop();
