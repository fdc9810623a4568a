/** Two fingers on a drawing, which zoom it. */

const LEAST = 10;
const KINDS = ["touchstart", "touchmove", "touchend", "touchcancel"];

export class Pinch {
  /** `zoom` is called with by how much two fingers are further apart than before, and with the place in the window between them. */
  constructor(element, zoom) {
    this.zoom = zoom;
    this.apart = null;
    this.gone = (event) => event.target.isConnected || this.take(event);
    KINDS.forEach((kind) => element.addEventListener(kind, (event) => this.take(event), { passive: false }));
  }

  /** Takes an event of fingers. Two that move apart zoom, and one alone is left to the browser. */
  take(event) {
    const before = this.apart;
    this.apart = event.touches.length === 2 ? apart(event.touches) : null;
    if (event.type === "touchstart") {
      this.follow(event.target);
    } else if (event.type === "touchmove" && this.apart) {
      if (event.cancelable) {
        event.preventDefault();
      }
      if (before && before !== this.apart) {
        this.zoom(this.apart / before, (event.touches[0].clientX + event.touches[1].clientX) / 2);
      }
    }
  }

  /** A zoom draws the bar below a finger anew. What the finger does then comes to the bar that is gone, and to nothing above it. */
  follow(bar) {
    KINDS.forEach((kind) => bar.addEventListener(kind, this.gone, { passive: false }));
  }
}

/** How far two fingers are apart. */
function apart([one, other]) {
  return Math.max(Math.hypot(one.clientX - other.clientX, one.clientY - other.clientY), LEAST);
}
