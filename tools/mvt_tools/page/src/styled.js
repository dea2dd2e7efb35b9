// The library's picture with a style round it. The picture itself stays as it is, byte by byte.
import {joined} from './files.js';

/**
 * A picture whose layers, in the order in which it draws them, have these colours; a layer without one (null) isn't shown.
 * Rings of one feature that overlap are filled as one area, as on the page.
 */
export function styled(picture, colours) {
  // A rule for `path` outweighs that of the picture, which is for its class alone; and any rule does an attribute.
  const rules = colours.map(
    (colour, index) =>
      `svg>svg>svg:nth-of-type(${index + 1}){${colour === null ? 'display:none' : `color:${colour}`}}`);
  const style = ['<style>path.polygons{fill-rule:nonzero}', ...rules].join('\n');
  const head =
    new TextEncoder().encode(`<svg xmlns="http://www.w3.org/2000/svg" viewBox="0 0 1 1">\n${style}</style>\n`);
  const end = new TextEncoder().encode('\n</svg>');
  return joined([head, picture, end], head.length + picture.length + end.length);
}
