// Names for what is saved.

const ENDINGS = /(\.(mvt|pbf|gz|gzip|zz|br|bin|mlt))+$/i;

/** Where a tile's file name says that it is: `tiles/12/2120/1451.pbf` is 12/2120/1451; null for others. */
export function placeIn(name) {
  const [, z, x, y] =
    /(?:^|\/)(\d{1,2})[/-](\d{1,10})[/-](\d{1,10})$/.exec(name.replace(ENDINGS, ''))?.map(Number) ?? [];
  return z <= 30 && Math.max(x, y) < 2 ** z ? { z, x, y } : null;
}

/** What a tile's file is called without its ending; zoom, column and row are kept: `tiles/12/2120/1451.pbf` is `12-2120-1451`. */
export function stemOf(name) {
  const bare = name.replace(ENDINGS, '');
  const place = /(?:^|\/)(\d{1,2})\/(\d{1,10})\/(\d{1,10})$/.exec(bare);
  return place ? place.slice(1).join('-') : bare.split('/').at(-1) || 'tile';
}
