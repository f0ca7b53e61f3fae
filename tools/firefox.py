"""A Firefox without a window, which tools/oauth2 opens and a program steers by its remote protocol, Marionette; for tools/try-servers."""
import json
import os
import signal
import socket
import time

PROGRAM = 'firefox-esr'
ELEMENT = 'element-6066-11e4-a52e-4f735466cecf'  # the member that names an element (WebDriver, 12)
# What the browser does by itself is turned off.
OFF = ('browser.shell.checkDefaultBrowser', 'datareporting.policy.dataSubmissionEnabled', 'toolkit.telemetry.reportingpolicy.firstRun',
       'app.update.enabled', 'network.captive-portal-service.enabled', 'network.connectivity-service.enabled')


class Firefox:
    """One browser with a profile of its own in a folder; .command is what the variable BROWSER has to be so that it is opened."""

    def __init__(self, folder, port):
        self.port, self.profile, self.number, self.socket = port, os.path.join(folder, 'profile'), 0, None
        os.makedirs(self.profile)
        with open(os.path.join(self.profile, 'user.js'), 'w') as f:
            f.write('user_pref("marionette.port", %d);\n' % port)
            f.writelines('user_pref("%s", false);\n' % name for name in OFF)
        self.command = '%s --headless --no-remote --marionette --profile %s %%s' % (PROGRAM, self.profile)

    def connect(self, seconds=60):
        """Begins a session with the browser, once it is there: its version."""
        end = time.monotonic() + seconds
        while not self.socket:
            try:
                self.socket = socket.create_connection(('127.0.0.1', self.port), seconds)
            except OSError:
                if time.monotonic() > end:
                    raise
                time.sleep(0.2)
        self.stream = self.socket.makefile('rwb')
        self.read()
        return self.ask('WebDriver:NewSession', acceptInsecureCerts=True)['capabilities']['browserVersion']

    def read(self):
        """A message: its length in decimal, a colon, and so many bytes of JSON."""
        length = b''
        while not length.endswith(b':'):
            got = self.stream.read(1)
            if not got:
                raise OSError('the browser has ended')
            length += got
        return json.loads(self.stream.read(int(length[:-1])))

    def ask(self, command, **params):
        """The value of a command's answer."""
        self.number += 1
        text = json.dumps([0, self.number, command, params]).encode()
        self.stream.write(b'%d:%s' % (len(text), text))
        self.stream.flush()
        _, _, error, value = self.read()
        if error:
            raise OSError('%s: %s' % (command, error['message']))
        return value

    def go(self, url):
        self.ask('WebDriver:Navigate', url=url)

    def find(self, selector):
        """The element of a CSS selector."""
        return self.ask('WebDriver:FindElement', using='css selector', value=selector)['value'][ELEMENT]

    def type(self, selector, text):
        self.ask('WebDriver:ElementSendKeys', id=self.find(selector), text=text)

    def click(self, selector):
        self.ask('WebDriver:ElementClick', id=self.find(selector))

    def page(self):
        """The URL and the title of the page that is shown."""
        return self.ask('WebDriver:GetCurrentURL')['value'], self.ask('WebDriver:GetTitle')['value']

    def quit(self):
        """Ends the browser, also where no session began: a link in its profile has its process after a plus sign."""
        if self.socket:
            self.ask('Marionette:Quit', flags=['eForceQuit'])
            self.stream.close()
            self.socket.close()
        elif os.path.islink(os.path.join(self.profile, 'lock')):
            os.kill(int(os.readlink(os.path.join(self.profile, 'lock')).rpartition('+')[2]), signal.SIGTERM)
