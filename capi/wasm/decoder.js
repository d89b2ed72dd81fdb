// Calls of the decoder's module, and the cut of a stream into units for the list. Used by page.html and check.mjs.
"use strict";

const ANSWERS = { PICTURE: 1, NEEDS: 2, END: 3, FAULT: -1 };
const CHROMA = ["4:4:4", "4:2:2", "4:2:0"];
const SIZES = { decoder: 16, frame: 40, format: 120, name: 32 };

// A decoder over an instance of the module. Its memory may grow in each call, so views of it are made anew.
class Decoder {
    constructor(exports) {
        this.x = exports;
        this.at = {};
        for (const [name, size] of Object.entries(SIZES)) this.at[name] = this.take(size);
        this.bytes(this.at.decoder, SIZES.decoder).fill(0);
        if (this.x.jev_decoder_open(this.at.decoder) !== 0) throw new Error("no memory for a decoder");
    }

    take(size) {
        const at = this.x.jev_alloc(BigInt(size));
        if (at === 0n) throw new Error("no memory");
        return at;
    }

    bytes(at, length) {
        return new Uint8Array(this.x.memory.buffer, Number(at), length);
    }

    send(piece) {
        const at = this.take(Math.max(piece.length, 1));
        this.bytes(at, piece.length).set(piece);
        const answer = this.x.jev_decoder_send(this.at.decoder, at, BigInt(piece.length));
        this.x.jev_free(at);
        if (answer !== 0) throw new Error("no memory");
    }

    finish() {
        this.x.jev_decoder_finish(this.at.decoder);
    }

    // {picture}, {fault}, {needs: true} or {end: true}
    next() {
        const answer = this.x.jev_decoder_next(this.at.decoder, this.at.frame);
        const frame = new DataView(this.x.memory.buffer, Number(this.at.frame), SIZES.frame);
        const number = (at) => frame.getUint32(at, true);
        if (answer === ANSWERS.PICTURE) return { picture: this.picture([0, 4, 8, 12, 16].map(number)) };
        if (answer === ANSWERS.NEEDS) return { needs: true };
        if (answer === ANSWERS.END) return { end: true };
        if (answer !== ANSWERS.FAULT) throw new Error("no memory");
        const [unit, at] = [24, 32].map((place) => Number(frame.getBigUint64(place, true)));
        return { fault: { unit, at, cause: this.causeName(number(20)) } };
    }

    picture([number, width, height, chromaWidth, chromaHeight]) {
        const sizes = [[width, height], [chromaWidth, chromaHeight], [chromaWidth, chromaHeight]];
        const planes = sizes.map(([across, down], plane) => this.plane(plane, across, down));
        return { number, width, height, chromaWidth, chromaHeight, planes, format: this.format() };
    }

    plane(plane, width, height) {
        const length = width * height, at = this.take(length);
        const answer = this.x.jev_decoder_plane(this.at.decoder, plane, at, BigInt(length), BigInt(width));
        const copied = this.bytes(at, length).slice();
        this.x.jev_free(at);
        if (answer !== 0) throw new Error(`plane ${plane}: answer ${answer}`);
        return copied;
    }

    format() {
        if (this.x.jev_decoder_format(this.at.decoder, this.at.format) !== 0) return null;
        const view = new DataView(this.x.memory.buffer, Number(this.at.format), SIZES.format);
        const [width, height, chroma, interlaced, fields] = [0, 4, 8, 12, 16].map((at) => view.getUint32(at, true));
        const [rate, rateUnder, aspect, aspectUnder, lumaOffset, lumaExcursion, chromaOffset, chromaExcursion] =
            [24, 32, 40, 48, 56, 64, 72, 80].map((at) => Number(view.getBigUint64(at, true)));
        return { width, height, chroma: CHROMA[chroma], interlaced, fields, rate: rate / rateUnder,
            aspect: aspect / aspectUnder, lumaOffset, lumaExcursion, chromaOffset, chromaExcursion };
    }

    causeName(cause) {
        const length = this.x.jev_cause_name(cause, this.at.name, BigInt(SIZES.name));
        return new TextDecoder().decode(this.bytes(this.at.name, Number(length)).slice());
    }

    close() {
        this.x.jev_decoder_close(this.at.decoder);
        for (const at of Object.values(this.at)) this.x.jev_free(at);
    }
}

// The pictures and the fault of a stream that is sent in pieces, as they come.
function* decode(exports, stream, piece) {
    const decoder = new Decoder(exports);
    try {
        for (let at = 0; ; ) {
            const next = decoder.next();
            if (next.needs && at < stream.length) {
                decoder.send(stream.subarray(at, at + piece));
                at += piece;
            } else if (next.needs) {
                decoder.finish();
            } else {
                yield next;
                if (!next.picture) return;
            }
        }
    } finally {
        decoder.close();
    }
}

const KINDS = { 0x00: "sequence header", 0x10: "end of sequence", 0x20: "auxiliary data", 0x30: "padding" };

function kindOf(code) {
    if (!(code & 0x08)) return KINDS[code] || `code 0x${code.toString(16)}`;
    const kind = ["intra", "inter, 1 reference", "inter, 2 references", "3 references"][code & 3];
    return `picture, ${kind}${(code & 0x0c) === 0x0c ? ", referred to" : ""}`;
}

// The units of a stream up to the first that has no next one: this is the page's own cut, by which nothing is decoded.
function unitsOf(stream) {
    const view = new DataView(stream.buffer, stream.byteOffset, stream.byteLength), units = [];
    for (let at = 0; at < stream.length; ) {
        const rest = stream.length - at;
        const isUnit = rest >= 13 && view.getUint32(at) === 0x42424344;
        if (!isUnit) {
            units.push({ at, length: rest, kind: "no unit" });
            break;
        }
        const code = view.getUint8(at + 4), offset = view.getUint32(at + 5);
        const length = Math.min(code === 0x10 && offset === 0 ? 13 : offset < 13 ? rest : offset, rest);
        const number = code & 0x08 && rest >= 17 ? view.getUint32(at + 13) : null;
        units.push({ at, length, kind: kindOf(code), number });
        at += length;
    }
    return units;
}
