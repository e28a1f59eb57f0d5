"""What SARIF 2.1.0 requires of each object that tools/sarif writes. Outside of what is proved.

Written from the standard's text, apart from the writer: required and allowed properties, types and values of each
object; that indices fit; that regions lie within their files, in UTF-16 units.
"""
import re
from collections.abc import Callable, Iterator
from typing import Any
from urllib.parse import unquote_to_bytes

LEVELS = ('none', 'note', 'warning', 'error')
RESULT_KINDS = ('notApplicable', 'pass', 'fail', 'review', 'open', 'informational')
Check = Callable[[Any], bool]


def is_text(value: Any) -> bool:
    return isinstance(value, str)


def is_flag(value: Any) -> bool:
    return isinstance(value, bool)


def is_number(least: int) -> Check:
    return lambda value: isinstance(value, int) and not isinstance(value, bool) and value >= least


def is_one_of(*values: str) -> Check:
    return lambda value: value in values


def is_address(value: Any) -> bool:
    """A reference to a resource: ASCII, its other bytes as percent signs and digits; no scheme by accident."""
    return (
        is_text(value)
        and re.fullmatch(r"(?:file:///|\./|(?![^/]*:))(?:[A-Za-z0-9._~!$&'()*+,;=:@/-]|%[0-9A-Fa-f]{2})+", value)
        is not None
    )


def is_dictionary_of_texts(value: Any) -> bool:
    return isinstance(value, dict) and all(is_text(key) and is_text(text) for key, text in value.items())


# Of each object the checks of its properties: a function, the name of an object, or a list of one of these. `!` marks a
# required one.
OBJECTS: dict[str, dict[str, Any]] = {
    'sarifLog': {'$schema': is_text, 'version!': is_one_of('2.1.0'), 'runs!': ['run']},
    'run': {
        'tool!': 'tool',
        'columnKind': is_one_of('utf16CodeUnits', 'unicodeCodePoints'),
        'invocations': ['invocation'],
        'artifacts': ['artifact'],
        'results': ['result'],
        'properties': 'propertyBag',
    },
    'tool': {'driver!': 'toolComponent'},
    'toolComponent': {
        'name!': is_text,
        'version': is_text,
        'rules': ['reportingDescriptor'],
        'notifications': ['reportingDescriptor'],
        'shortDescription': 'multiformatMessageString',
    },
    'reportingDescriptor': {
        'id!': is_text,
        'shortDescription': 'multiformatMessageString',
        'help': 'multiformatMessageString',
        'fullDescription': 'multiformatMessageString',
        'defaultConfiguration': 'reportingConfiguration',
    },
    'multiformatMessageString': {'text!': is_text},
    'reportingConfiguration': {'level': is_one_of(*LEVELS)},
    'invocation': {'executionSuccessful!': is_flag, 'toolExecutionNotifications': ['notification']},
    'notification': {
        'descriptor': 'reportingDescriptorReference',
        'level': is_one_of(*LEVELS),
        'locations': ['location'],
        'message!': 'message',
    },
    'reportingDescriptorReference': {'id': is_text, 'index': is_number(0)},
    'message': {'text!': is_text},
    'artifact': {
        'location': 'artifactLocation',
        'length': is_number(0),
        'sourceLanguage': is_text,
        'hashes': is_dictionary_of_texts,
    },
    'artifactLocation': {'uri!': is_address, 'index': is_number(0)},
    'result': {
        'ruleId': is_text,
        'ruleIndex': is_number(0),
        'kind': is_one_of(*RESULT_KINDS),
        'level': is_one_of(*LEVELS),
        'message!': 'message',
        'locations': ['location'],
        'partialFingerprints': is_dictionary_of_texts,
        'properties': 'propertyBag',
    },
    'location': {'physicalLocation': 'physicalLocation', 'logicalLocations': ['logicalLocation']},
    'physicalLocation': {'artifactLocation!': 'artifactLocation', 'region': 'region'},
    'logicalLocation': {'name': is_text, 'fullyQualifiedName': is_text, 'kind': is_text},
    'region': {
        'startLine!': is_number(1),
        'startColumn': is_number(1),
        'endLine': is_number(1),
        'endColumn': is_number(1),
    },
    'propertyBag': {},
}


def faults_of(value: Any, kind: Any, at: str) -> Iterator[str]:
    """What is wrong with the form of a value."""
    if callable(kind):
        if not kind(value):
            yield f'{at}: {value!r} is not allowed'
    elif isinstance(kind, list):
        if not isinstance(value, list):
            yield f'{at}: no list'
            return
        for index, item in enumerate(value):
            yield from faults_of(item, kind[0], f'{at}[{index}]')
    elif not isinstance(value, dict):
        yield f'{at}: no object'
    elif kind != 'propertyBag':
        yield from faults_of_object(value, OBJECTS[kind], at)


def faults_of_object(value: dict[str, Any], properties: dict[str, Any], at: str) -> Iterator[str]:
    """What is wrong with the properties of an object."""
    known = {name.rstrip('!'): kind for name, kind in properties.items()}
    yield from (
        f'{at}: {name[:-1]} is required' for name in properties if name.endswith('!') and name[:-1] not in value
    )
    for name, item in value.items():
        if name in known:
            yield from faults_of(item, known[name], f'{at}.{name}')
        else:
            yield f'{at}: {name} is no property here'


def width(line: bytes) -> int:
    """The UTF-16 units of a line, a byte that isn't UTF-8 counted as one."""
    return len(line.decode('utf-8', 'surrogateescape').encode('utf-16-le', 'surrogatepass')) // 2


def faults_of_region(region: dict[str, int], lines: list[bytes], at: str) -> Iterator[str]:
    """A region begins and ends within its file, and doesn't end before it begins."""
    start = (region['startLine'], region.get('startColumn', 1))
    last = region.get('endLine', start[0])
    end = (last, region.get('endColumn', width(lines[last - 1]) + 1 if last <= len(lines) else 1))
    for line, column in (start, end):
        if line > len(lines) or column > width(lines[line - 1]) + 1:
            yield f'{at}: {line}:{column} is outside the file'
    if end < start:
        yield f'{at}: it ends before it begins'


def faults_of_location(location: dict[str, Any], run: dict[str, Any], at: str) -> Iterator[str]:
    """A location's file is one of the run's, and its region lies in that file."""
    physical = location.get('physicalLocation')
    if not physical:
        return
    address, index = physical['artifactLocation']['uri'], physical['artifactLocation'].get('index')
    artifacts = run.get('artifacts', [])
    if index is not None and (index >= len(artifacts) or artifacts[index]['location']['uri'] != address):
        yield f'{at}: index {index} is not the file {address}'
    try:
        with open(unquote_to_bytes(address.removeprefix('file://')), 'rb') as file:
            data = file.read()
    except OSError:
        yield f'{at}: {address} is not there'
        return
    if 'region' in physical:
        yield from faults_of_region(physical['region'], data.split(b'\n'), at)


def faults_of_result(result: dict[str, Any], run: dict[str, Any], at: str) -> Iterator[str]:
    """A result's rule is the one that its index names; only one that fails has a level."""
    rules = run['tool']['driver'].get('rules', [])
    index = result.get('ruleIndex')
    if index is not None and (index >= len(rules) or rules[index]['id'] != result.get('ruleId')):
        yield f'{at}: index {index} is not the rule {result.get("ruleId")}'
    if result.get('kind', 'fail') != 'fail' and result.get('level') != 'none':
        yield f'{at}: a result that does not fail has the level none'
    for number, location in enumerate(result.get('locations', [])):
        yield from faults_of_location(location, run, f'{at}.locations[{number}]')


def faults_of_run(run: dict[str, Any], at: str) -> Iterator[str]:
    """What is wrong between the objects of a run."""
    for index, result in enumerate(run.get('results', [])):
        yield from faults_of_result(result, run, f'{at}.results[{index}]')
    own = run['tool']['driver'].get('notifications', [])
    for invocation in run.get('invocations', []):
        for note in invocation.get('toolExecutionNotifications', []):
            index = note.get('descriptor', {}).get('index')
            if index is not None and (index >= len(own) or own[index]['id'] != note['descriptor'].get('id')):
                yield f'{at}: index {index} is not the notification {note["descriptor"].get("id")}'
            for location in note.get('locations', []):
                yield from faults_of_location(location, run, f'{at}.notifications')
    fingerprints = [
        (
            result['locations'][0]['physicalLocation']['artifactLocation']['uri'],
            tuple(result['partialFingerprints'].items()),
        )
        for result in run.get('results', [])
        if result.get('locations') and result.get('partialFingerprints')
    ]
    if len(set(fingerprints)) != len(fingerprints):
        yield f'{at}: two results have one fingerprint'


def faults(log: Any) -> list[str]:
    """All that is wrong with a log."""
    found = list(faults_of(log, 'sarifLog', 'log'))
    if not found:
        found = [fault for index, run in enumerate(log['runs']) for fault in faults_of_run(run, f'log.runs[{index}]')]
    return found
