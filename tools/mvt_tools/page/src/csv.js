// Tables as CSV (RFC 4180): cells with a comma, a quote or a line end are quoted. Spreadsheets take a text that begins like a
// formula for one, so an apostrophe stands before it.

/** The lines of a table, each ended. */
export function csvOf(rows) {
  return rows.map((row) => `${row.map(cell).join(',')}\r\n`).join('');
}

function cell(value) {
  const isFormula = typeof value === 'string' && /^[=+\-@\t\r]/.test(value);
  const written = value === null || value === undefined ? '' : `${isFormula ? "'" : ''}${value}`;
  return /[",\r\n]/.test(written) ? `"${written.replaceAll('"', '""')}"` : written;
}
