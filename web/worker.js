// A worker does one job, in an instance of the module.
onmessage = ({ data: { module, name, asked } }) => {
  try {
    const call = callsOf(new WebAssembly.Instance(module, {})), begin = performance.now();
    const told = JOBS[name](call, asked), milliseconds = performance.now() - begin;
    postMessage({ ...told, milliseconds }, told.out ? [told.out.buffer] : []);
  } catch (error) {
    postMessage({ broken: String(error) });
  }
};
