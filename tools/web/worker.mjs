// A worker of the page: it is handed the module once, and then part after part. What is kept of a part is packed.
import { changed, labelled } from "./labelling.mjs";

let program = null;

async function throughStream(bytes, stream) {
  return new Uint8Array(await new Response(new Blob([bytes]).stream().pipeThrough(stream)).arrayBuffer());
}

function packed(bytes) { return throughStream(bytes, new CompressionStream("gzip")); }

function unpacked(bytes) { return throughStream(bytes, new DecompressionStream("gzip")); }

async function resultOf({ part, change }) {
  const made = change ? changed(program, { ...change, bytes: await unpacked(change.packed) }) : labelled(program, part);
  const { output, rows, ...rest } = made, table = new TextEncoder().encode(rows);
  const [file, packedTable] = [await packed(output), await packed(table)];
  return { ...rest, file, table: packedTable, size: output.length, tableSize: table.length };
}

addEventListener("message", async ({ data }) => {
  if (data.module) {
    program = data.module;
    return;
  }
  try {
    const result = await resultOf(data);
    postMessage({ job: data.job, result }, [result.file.buffer, result.table.buffer]);
  } catch (fault) {
    postMessage({ job: data.job, fault: String(fault.message || fault) });
  }
});
