/** Milliseconds without a byte, unless the caller says otherwise. */
export const TIMEOUT: 30000;
/** Tells once that for so long something was due and no byte came. */
export class Silence {
    /**
     * @param {number | null} timeout milliseconds
     * @param {() => void} tell
     */
    constructor(timeout: number | null, tell: () => void);
    /** Something is due from now on, unless it was already. */
    begin(): void;
    /** A byte came. */
    heard(): void;
    /** Nothing is due any more. The timer sees that when it ends: it isn't set anew for each request. */
    end(): void;
    /** Nothing will be due again. */
    close(): void;
    #private;
}
