// A worker of the page: runs the program on what the page sends, one call after another.

let program = null;
const text_of = (bytes) => new TextDecoder().decode(bytes);

function answer({id, words, files, input}) {
  const start = performance.now();
  try {
    const {status, out, err, files: made} = run_program(program, words, files, input);
    return {id, status, out: text_of(out), err: text_of(err), files: made, time: performance.now() - start};
  } catch (error) {
    return {id, status: null, out: '', err: `the program stopped: ${error.message}`, files: {}, time: performance.now() - start};
  }
}

onmessage = ({data}) => {
  if (data.program) program = data.program;
  else postMessage(answer(data));
};
