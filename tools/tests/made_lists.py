"""Published lists that tests make. Nobody signed them."""
import base64
import json

PUBLISHER, OTHER_PUBLISHER = 'ED' + 'AA' * 32, 'ED' + 'BB' * 32
KEYS = ['ED%064X' % number for number in range(1, 80)]


def blob(keys, sequence=1, ends=900000000, **more):
    entries = [{'validation_public_key': key, 'manifest': ''} for key in keys]
    told = {'sequence': sequence, 'expiration': ends, 'validators': entries, **more}
    return base64.b64encode(json.dumps(told).encode()).decode()


def published(keys, publisher=PUBLISHER, **more):
    return json.dumps({'public_key': publisher, 'blob': blob(keys, **more), 'version': 1})
