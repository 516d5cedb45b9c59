"""The public functions of all libraries that can run out of memory, which their signatures say: each stands in a row, or `MAKES` says which call
with a row makes it, with all that it is given. A name is the type and the function, or the crate and a function that has no type."""
import re

from support import programs
import files
import rattle

# Libraries that no user calls, and those of which runs of the programs, or rows of the package for C, make each call.
OTHERS = set("""named_calls node_semver_callers json_places npm_lock_findings command_lines npm_lock_reports npm_manifest_files
    npm_pick_reports version_solving npm_resolve npm_resolve_reports npm_resolve_laws npm_calls npm_overrides npm_trees npm_tree_building
    npm_tree_locks npm_tree_reports""".split())

# The calls that make other functions, each with these functions.
MAKES = {
    "Range::intersect": "Gather::gather MergedSpans::common_with Gathered::gather Range::of_gathered Gathered::into_sets",
    "Range::difference": "MergedSpans::subtract_from",
    "Range::parse": "Places::none Places::of EndVersion::with_extras CommonSpan::narrow Sets::read",
    "Range::clone": "Places::clone EndVersion::copy Sets::copy",
    "Version::least": "Stepped::least",
    "Version::next": "Stepped::next semver_texts::copies_with_zero",
    "npm_semver::range_from_sets": "EndVersion::with_copies Gathered::new Gathered::add",
    "Version::clone": "semver_texts::copies_of",
    "Version::parse": "semver_texts::copy_of",
    "Identifiers::to_vec": "semver_texts::to_vec_inline",
    "semver_keys::version_key": "HasKey::add_prerelease_key Version::add_prerelease_key",
    "semver_keys::add_version_key": "VersionRef::add_prerelease_key",
    "Range::union": "Sets::union",
    "npm_semver::parse_range": "npm_sets::read_npm npm_sets::read_npm_text npm_sets::refused_offset",
    "npm_pick::pick": "npm_pick::is_engine_for npm_pick::text_of npm_pick::up_to",
    "npm_pick::keep": "npm_pick::keys_in_order",
    "npm_lock::check": """npm_texts::range_of npm_texts::copied npm_texts::put_text npm_packages::lock_of Index::of_lock SoundLock::of
        npm_lock::check_sound_lock Lock::find npm_packages::asked_of npm_packages::rules_of npm_packages::rules_in Problem::to_json Unchecked::to_json
        npm_lock::dependency_of Dependency::to_json npm_lock::object_of""",
    "npm_lock::check_any": "npm_packages::place_text",
    "npm_lock::mismatches_of": "Mismatch::to_json",
    "npm_lock::suspicious_sources": "Source::to_json",
    "npm_advisories::audit_lock": "npm_packages::edges_in Dependents::of_edges npm_advisories::audit Found::to_json",
    "Dependents::of_lock": "Dependents::of_sound_lock",
}
MADE_BY = {name: call for call, names in MAKES.items() for name in names.split()}
FREES = r"SemverError::out_of_memory|node_semver_c::.*_free|npm_lock::fault_of"  # (these ask for no memory)

PUBLIC = re.compile(r"\bpub\s+(?:(?:async|unsafe|const|extern)\s+)*$")
OUT_OF_MEMORY = re.compile(r"\b(?:(?:Alloc)?Global|AllocError|Allocator)\b|(?<![\w:])Result<(?:[^<>,]|<[^<>]*>|\([^()]*\))*>\s*$")


def of_source(source, crate):
    for it in (it for it in source.functions if not it.is_inner):
        signature = source.plain[it.start : rattle.next_part(source.plain, it.start).start()]
        said = re.split(r"\bwhere\b", signature)[0]
        is_public = PUBLIC.search(source.plain, max(0, it.start - 40), it.start) or it.trait not in (None, "From")
        if is_public and OUT_OF_MEMORY.search(said) and "fmt::Result" not in said:
            yield f"{it.type or crate}::{it.name}"


def lacking(rows, with_exports=False):
    """What is wrong with the names of rows: a line for each fault."""
    crates = [it for it, (_, is_export) in programs.crates.listed().items() if not it.endswith("_tests") and it not in OTHERS and is_export <= with_exports]
    crates = [it for it in crates if not programs.crates.is_program(it)]
    calls = {name for crate in crates for path in files.sources(crate) for name in of_source(rattle.source(path), crate)}
    for name in sorted(name for name in calls - rows if not re.fullmatch(FREES, name)):
        if MADE_BY.get(name) not in rows:
            yield f"{name} can run out of memory, and neither it nor a call that makes it ({MADE_BY.get(name)}) stands in a row"
    if len(calls) < 50:
        yield f"only {len(calls)} public functions that can run out of memory were found"
