// Starts mpdbg as a debugger. The script stands on the command line of the adapter, and VS Code puts nothing of a launch into the `args`
// that package.json can name, so the command is made here.
const vscode = require('vscode');

// Without a launch.json the script that is open is debugged.
const provider = {
  resolveDebugConfiguration: (folder, launch) =>
    launch.type ? launch : { type: 'mpdbg', request: 'launch', name: 'mpdbg', program: '${file}' },
};

const factory = {
  createDebugAdapterDescriptor: ({ configuration }) =>
    new vscode.DebugAdapterExecutable(configuration.mpdbg || 'mpdbg', ['dap', configuration.program, ...(configuration.options || [])]),
};

exports.activate = (context) => context.subscriptions.push(
  vscode.debug.registerDebugConfigurationProvider('mpdbg', provider),
  vscode.debug.registerDebugAdapterDescriptorFactory('mpdbg', factory),
);
