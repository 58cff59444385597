// The script in the link: packed, in letters that a link may have, behind its #.
const KEY = "#s=";
const MOST = 4_194_304; // bytes of a script

/** The bytes of what was written in base64. */
export const bytesOf = (letters) => Uint8Array.from(atob(letters), (letter) => letter.charCodeAt(0));

async function through(stream, bytes) {
    const reader = new Blob([bytes]).stream().pipeThrough(stream).getReader(), parts = [];
    for (let size = 0, it = await reader.read(); !it.done; it = await reader.read()) {
        size += it.value.length;
        if (size > MOST) throw new RangeError("the script of this link is too long");
        parts.push(it.value);
    }
    return new Uint8Array(await new Blob(parts).arrayBuffer());
}

export async function packed(script) {
    const bytes = await through(new CompressionStream("deflate-raw"), new TextEncoder().encode(script));
    return KEY + btoa(Array.from(bytes, (byte) => String.fromCharCode(byte)).join("")).replace(/\+/g, "-").replace(/\//g, "_").replace(/=+$/, "");
}

/** The bytes that were packed; at most as many as a script may have. */
export const inflated = (bytes) => through(new DecompressionStream("deflate-raw"), bytes);

/** The script of a link, or null where it has none. */
export async function unpacked(hash) {
    if (!hash.startsWith(KEY)) return null;
    const letters = hash.slice(KEY.length).replace(/-/g, "+").replace(/_/g, "/");
    return new TextDecoder().decode(await inflated(bytesOf(letters)));
}
