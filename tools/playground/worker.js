// Answers the page's messages one after another. The first one brings the module; any other is a command line. After a call
// that throws a new instance is made, since nothing is known of the old one.
let module;
let engine;

self.onmessage = ({data}) => {
  try {
    if (data.module !== undefined) {
      module = data.module;
      return;
    }
    engine ??= new Engine(module);
    self.postMessage({number: data.number, ...engine.answer(data.program, data.words, data.files)});
  } catch (error) {
    engine = undefined;
    self.postMessage({number: data.number, fault: String(error)});
  }
};
