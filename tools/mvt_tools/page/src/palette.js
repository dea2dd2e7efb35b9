// The colours of layers: sixteen that can be told apart, on light paper and on dark. Each has a contrast of 3:1 to its
// paper, and in OKLab each two are further apart than 0.15.

export const LIGHT = {
  paper: '#ffffff',
  ink: '#000000',
  edge: '#767676',
  layers: [
    '#2b567c', '#f51c35', '#04a322', '#9b1af5', '#bc822e', '#00018c', '#f82bd8', '#476706', '#3d73f2', '#8d0919',
    '#43949f', '#6d0796', '#173404', '#a96098', '#3307e8', '#25052c'
  ],
};

export const DARK = {
  paper: '#1b1e21',
  ink: '#ffffff',
  edge: '#8b9095',
  layers: [
    '#10acfa', '#fb5b40', '#22d839', '#f3fb31', '#eb9afd', '#9f6700', '#2cfdd7', '#dc0d8c', '#7bb089', '#4b59fe',
    '#f3b01d', '#bc30fb', '#198223', '#fee6fc', '#357492', '#af7da2'
  ],
};

const isDark = matchMedia('(prefers-color-scheme: dark)');

/** The colours for the page as the person has it now. */
export function paletteNow() {
  return isDark.matches ? DARK : LIGHT;
}

/** Calls a function when the page turns dark or light. */
export function onTurned(listener) {
  isDark.addEventListener('change', listener);
}
