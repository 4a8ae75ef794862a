// Names of boards: a line for each, number, space, name. They are the page's own, and are only ever shown as text.

export function read_names(text, n) {
    const names = [];
    for (const [k, line] of text.replace(/^\ufeff/, '').split(/\r?\n/).entries()) {
        if (line.trim() === '') continue;
        const read = /^\s*(\d{1,2})\s+(.*\S)\s*$/.exec(line);
        if (!read) return { fault: `line ${k + 1}: a number, a space and a name are expected` };
        if (Number(read[1]) >= n) return { fault: `line ${k + 1}: there is no board ${read[1]} among ${n}` };
        names[Number(read[1])] = read[2];
    }
    return { names };
}

/// Several lines as names have them: whatever else, a file of these was to be names.
export function is_of_names(text) {
    return (text.match(/^\s*\d{1,2}[ \t]+\S/gm) ?? []).length > 1;
}

/// The text of bytes: UTF-8, or what older programs write.
export function decoded(bytes) {
    try {
        return { text: new TextDecoder('utf-8', { fatal: true }).decode(bytes), is_odd: false };
    } catch {
        return { text: new TextDecoder('windows-1252').decode(bytes), is_odd: true };
    }
}

export const names_text = (names) => names.map((name, board) => (name ? `${board} ${name}\n` : '')).join('');

/// "5 press", or "5"; and in a sentence "5 (press)".
export const called = (names, board) => (names[board] ? `${board} ${names[board]}` : String(board));
export const mentioned = (names, board) => (names[board] ? `${board} (${names[board]})` : String(board));

/// A name that is too long without its middle: names often differ in the number at their end.
export function shortened(text, most) {
    const letters = [...text];
    return letters.length <= most ? text : `${letters.slice(0, most - 5).join('')}…${letters.slice(-4).join('')}`;
}
