/** Functions of the day that change in steps. */

/** The path of steps, each a minute and the value from then on. Before the first the value is 0. */
export function stepPath(steps, x, y, begin, end) {
  let path = `M${x(begin)} ${y(0)}`;
  for (const [minute, value] of steps) {
    path += `H${x(minute)}V${y(value)}`;
  }
  return `${path}H${x(end)}`;
}
