// SPDX-License-Identifier: Apache-2.0
import check = require('./check');

/**
 * The packages of a package-lock.json that security advisories hit. The advisories are those of npm's bulk endpoint, or a list in OSV's form;
 * each may be given as a text.
 *
 * Throws a `CheckError` if the lock file, the advisories or an option cannot be read.
 */
declare function audit(lock: check.Lock | string, advisories: object | string, options?: audit.Options): audit.Report;

declare namespace audit {
    type Severity = 'info' | 'low' | 'moderate' | 'high' | 'critical';

    /** An advisory that does not count for a package, and why. */
    interface Exception {
        id: string;
        package: string;
        reason: string;
        /** The last day on which the exception applies, as `2027-03-01`. */
        until?: string | null;
    }

    interface Options {
        /** Less severe advisories are left out. */
        severity?: Severity | null | undefined;
        /** Packages of these groups are left out. */
        omit?: readonly check.Group[] | null | undefined;
        exceptions?: readonly Exception[] | null | undefined;
        /** An advisory that is withdrawn by this day does not count. Without it: the day in UTC. */
        today?: string | null | undefined;
    }

    /** A package that is hit, as `npm_lock_check --format json` writes it. */
    interface Hit {
        folder: string;
        name: string;
        version: string;
        readonly [member: string]: unknown;
    }

    /** An advisory that is excepted for a package. */
    interface Excepted {
        folder: string;
        id: string;
        name: string;
        reason: string;
    }

    /** It may have more members than these. */
    interface Report {
        /** No package is hit. */
        clean: boolean;
        /** How many advisories were read. */
        advisories: number;
        hits: Hit[];
        excepted: Excepted[];
    }
}

export = audit;
