"""The JSON Schema of an object of `tools/report --json`."""
import xl_report

PROMISE = (
    'Version %d. Under it no object loses a key, and no key changes its meaning or the kind of its value. New objects, '
    'new codes, and new keys behind the others may come: so pass over what you don\'t know.'
) % xl_report.VERSION


def schema_of(form):
    """The JSON Schema of a form's object."""
    keys = {'what': {'const': form.word}}
    for place, expression in form.places.items():
        one = {'type': 'integer', 'minimum': 0} if form.is_number(place) else {'type': 'string'}
        if place == 'values':
            keys[place] = {'type': 'array', 'items': one, 'minItems': 1, 'maxItems': 2}
        elif one['type'] == 'string' or place == 'code':
            one.update(choices(expression))
            keys[place] = one
        else:
            keys[place] = one
    return {'type': 'object', 'properties': keys, 'required': list(keys), 'additionalProperties': False}


def choices(expression):
    """What may stand at a place: one of some words or codes, else a pattern."""
    inner = expression[3:-1] if expression.startswith('(?:') else expression
    words = inner.split('|')
    if all(word.isalnum() for word in words):
        return {'enum': [int(word) if word.isdigit() else word for word in words]}
    is_codes = not any(letter in expression for letter in 'abc@~,')
    return {} if is_codes else {'pattern': '^%s$' % xl_report.expand(expression)}


def schema():
    told = [schema_of(form) for forms in xl_report.FORMS.values() for form in forms]
    version = {'what': {'const': 'format'}, 'version': {'const': xl_report.VERSION}}
    settings = {'what': {'const': 'settings'}, 'word': {'type': 'string'}}
    for keys in (settings, version):
        told.append({'type': 'object', 'properties': keys, 'required': list(keys), 'additionalProperties': False})
    return {
        '$schema': 'https://json-schema.org/draft/2020-12/schema',
        '$id': 'urn:x-xl:report:%d' % xl_report.VERSION,
        'title': 'A line of a report of xl',
        'description': PROMISE,
        'anyOf': told,
    }
