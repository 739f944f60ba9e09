// Revisions near one, and which came from which: those that the last text came from on the left, branches that undo left beside them.

const STEP = 14, LEFT = 14, RIGHT = 38;

export function drawGraph(canvas, { from, k, parents, kept }) {
  const scale = window.devicePixelRatio || 1;
  const height = canvas.parentElement.clientHeight;
  canvas.style.width = "56px";
  canvas.style.height = `${height}px`;
  [canvas.width, canvas.height] = [56 * scale, height * scale];
  const drawing = canvas.getContext("2d");
  drawing.scale(scale, scale);
  const ink = getComputedStyle(document.body).color;
  const place = (j) => ({ x: kept[j] ? LEFT : RIGHT, y: height / 2 + (k - j) * STEP });
  drawing.strokeStyle = drawing.fillStyle = ink;
  parents.forEach((parent, i) => {
    if (parent < 0) return;
    const [a, b] = [place(from + i), place(parent)];
    drawing.globalAlpha = kept[from + i] ? 0.8 : 0.4;
    drawing.beginPath();
    drawing.moveTo(a.x, a.y);
    const far = Math.abs(from + i - parent) > 1;
    if (far) drawing.quadraticCurveTo(Math.max(a.x, b.x) + 12, (a.y + b.y) / 2, b.x, b.y);
    else drawing.lineTo(b.x, b.y);
    drawing.stroke();
  });
  parents.forEach((_, i) => {
    const { x, y } = place(from + i);
    drawing.globalAlpha = 1;
    drawing.beginPath();
    drawing.arc(x, y, from + i === k ? 5 : 3, 0, 2 * Math.PI);
    drawing.fill();
  });
}

/** The revision at a place of the graph's height. */
export const revisionAtHeight = (canvas, k, y) => k - Math.round((y - canvas.parentElement.clientHeight / 2) / STEP);

/** How many revisions on each side are seen. */
export const seenBeside = (canvas) => Math.ceil(canvas.parentElement.clientHeight / STEP / 2) + 1;
