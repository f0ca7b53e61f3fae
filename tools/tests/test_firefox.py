"""Tests of how tools/firefox.py steers a browser, over a stand-in of its remote protocol."""
import json
import os
import socket
import sys
import tempfile
import threading
import unittest

import tool

sys.path.insert(0, tool.TOOLS)
import firefox

VALUES = {'WebDriver:NewSession': {'capabilities': {'browserVersion': '9'}}, 'WebDriver:FindElement': {'value': {firefox.ELEMENT: 'e'}},
          'WebDriver:GetCurrentURL': {'value': 'http://127.0.0.1/'}, 'WebDriver:GetTitle': {'value': 'é'}}


class Firefox(unittest.TestCase):
    def setUp(self):
        self.server, self.asked = socket.create_server(('127.0.0.1', 0)), []
        self.addCleanup(self.server.close)
        room = tempfile.TemporaryDirectory()
        self.addCleanup(room.cleanup)
        self.folder, self.it = room.name, firefox.Firefox(room.name, self.server.getsockname()[1])

    def serve(self):
        """Greets, and answers each command by the value of its name, or where it has none by an error."""
        connection = self.server.accept()[0]
        with connection, connection.makefile('rwb') as stream:
            self.send(stream, {'marionetteProtocol': 3})
            while True:
                length = b''
                while length[-1:] != b':':
                    length += stream.read(1)
                _, number, command, params = json.loads(stream.read(int(length[:-1])))
                self.asked.append((command, params))
                if command == 'Marionette:Quit':
                    return self.send(stream, [1, number, None, {}])
                self.send(stream, [1, number, None if command in VALUES else {'message': 'no'}, VALUES.get(command)])

    def send(self, stream, value):
        text = json.dumps(value, ensure_ascii=False).encode()
        stream.write(b'%d:%s' % (len(text), text))
        stream.flush()

    def test_a_session(self):
        threading.Thread(target=self.serve, daemon=True).start()
        self.assertEqual(self.it.connect(), '9')
        self.assertEqual((self.it.find('a'), self.it.page()), ('e', ('http://127.0.0.1/', 'é')))
        with self.assertRaisesRegex(OSError, 'WebDriver:Navigate: no'):
            self.it.go('https://as.example')
        self.it.quit()
        self.assertEqual(self.asked[0], ('WebDriver:NewSession', {'acceptInsecureCerts': True}))
        self.assertEqual(self.asked[-1], ('Marionette:Quit', {'flags': ['eForceQuit']}))

    def test_its_profile(self):
        profile = os.path.join(self.folder, 'profile')
        self.assertTrue(self.it.command.endswith('--profile %s %%s' % profile))
        with open(os.path.join(profile, 'user.js'), encoding='utf-8') as f:
            self.assertIn('user_pref("marionette.port", %d);\n' % self.server.getsockname()[1], f.read())
        self.it.quit()


if __name__ == '__main__':
    unittest.main()
