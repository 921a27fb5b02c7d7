// Scripts by their blocks, and a script as it stands up to a line.

const HEAD = /^[ \t\r]*duty[ \t]+(assume|imply|convert)[ \t]*\.[ \t]*([1-9][0-9]{0,5})[ \t\r]*(?:%.*)?$/;

/** The blocks of a script: the label of each, the line of its `duty`, and the line behind it, all from 1. */
export function blocksOf(text) {
  const blocks = [], lines = text.split('\n');
  lines.forEach((line, index) => {
    const head = HEAD.exec(line);
    if (!head) return;
    if (blocks.length) blocks[blocks.length - 1].end = index + 1;
    blocks.push({ label: `${head[1]}.${head[2]}`, begin: index + 1, end: lines.length + 1 });
  });
  return blocks;
}

/** The block in which a line stands; none in what stands before the first. */
export function blockAt(text, line) {
  return blocksOf(text).find((block) => block.begin <= line && line < block.end) ?? null;
}

/**
 * The script with the block of a line cut behind that line, and with the blocks of later duties left out: `labels` are
 * those of the trait in their order. Each line that is left keeps its number.
 */
export function cutAt(text, line, labels) {
  const here = blockAt(text, line), lines = text.split('\n');
  const isLater = (block) => labels.indexOf(block.label) > labels.indexOf(here.label);
  for (const block of blocksOf(text)) {
    const from = block.begin === here.begin ? line : isLater(block) ? block.begin - 1 : block.end;
    for (let number = from; number < block.end - 1; number++) lines[number] = '';
  }
  return lines.join('\n');
}
