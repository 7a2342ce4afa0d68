"""The programs that `loads.py` runs: each uses a package of Debian as its threads or its tasks would.

A program prints what does not hang on who comes first. Each calls `plant`, or awaits `plant_later`, where its package calls it, or among
what the package does. By the word `planted` these touch a field that nothing guards.
"""

from __future__ import annotations

from typing import NamedTuple

SHARED = """
import asyncio, sys, threading
port, is_planted = int(sys.argv[1]), sys.argv[2:] == ["planted"]
class Planted:
    count = 0
def plant():
    if is_planted:
        Planted.count += 1
async def plant_later():
    if is_planted:
        seen = Planted.count
        await asyncio.sleep(0)
        Planted.count = seen + 1
def in_threads(work, count=8):
    threads = [threading.Thread(target=work, args=(number,)) for number in range(count)]
    for thread in threads:
        thread.start()
    for thread in threads:
        thread.join()
"""
ASKING = SHARED + """
import http.client
def ask(port, number, count=5):
    connection = http.client.HTTPConnection("127.0.0.1", port, timeout=60)
    for turn in range(count):
        connection.request("GET", f"/item/{number}?turn={turn}")
        answers[number] += connection.getresponse().read().decode() + " "
    connection.close()
answers = [""] * 8
"""


class Load(NamedTuple):
    """A program, the modules that are watched, the packages of Debian that it needs, and the name of its service if it has one."""

    program: str
    watched: tuple[str, ...]
    packages: tuple[str, ...]
    service: str = ""


REDIS = SHARED + """
import redis
pool = redis.ConnectionPool(host="127.0.0.1", port=port, max_connections=16)
client = redis.Redis(connection_pool=pool)
heard, lock = [], threading.Lock()
def add(number):
    for turn in range(20):
        client.incr("count")
        with client.pipeline() as pipeline:
            pipeline.rpush("rows", number).hincrby("sums", number, turn).execute()
    with client.lock("key", timeout=30):
        client.set("last", int(client.get("last") or 0) + 1)
    plant()
def listen():
    for message in listener.listen():
        if message["type"] == "message":
            with lock:
                heard.append(int(message["data"]))
            if len(heard) == 8:
                return
listener = client.pubsub()
listener.subscribe("news")
listener.get_message(timeout=30)
listening = threading.Thread(target=listen)
listening.start()
in_threads(add)
in_threads(lambda number: client.publish("news", number))
listening.join()
print(int(client.get("count")), client.llen("rows"), sorted((int(a), int(b)) for a, b in client.hgetall("sums").items()))
print(int(client.get("last")), sorted(heard))
try:
    client.incr("rows")
except redis.ResponseError as error:
    print(error)
"""
POSTGRES = SHARED + """
import psycopg2
from psycopg2.pool import ThreadedConnectionPool
pool = ThreadedConnectionPool(1, 8, host="127.0.0.1", port=port, user="postgres", dbname="postgres")
def execute(text, *values):
    connection = pool.getconn()
    try:
        with connection, connection.cursor() as cursor:
            cursor.execute(text, values)
            return cursor.fetchall() if cursor.description else None
    finally:
        pool.putconn(connection)
execute("create table stock (id int primary key, n int); insert into stock select i, 100 from generate_series(1, 8) i")
def sell(number):
    for turn in range(20):
        execute("update stock set n = n - 1 where id = %s", turn % 8 + 1)
    try:
        execute("insert into stock values (%s, 0)", number + 1)
    except psycopg2.IntegrityError as error:
        faults.append(type(error).__name__)
    plant()
faults = []
in_threads(sell)
print(execute("select id, n from stock order by id"), faults)
pool.closeall()
"""
MOSQUITTO = SHARED + """
import paho.mqtt.client as mqtt
heard, lock, done, subscribed = [], threading.Lock(), threading.Event(), threading.Event()
def on_message(client, data, message):
    with lock:
        heard.append(message.payload.decode())
        if len(heard) == 80:
            done.set()
listener = mqtt.Client("listener")
listener.on_message, listener.on_subscribe = on_message, lambda *_: subscribed.set()
listener.connect("127.0.0.1", port)
listener.subscribe("news/#", qos=1)
listener.loop_start()
subscribed.wait(60)
def tell(number):
    client = mqtt.Client(f"teller{number}")
    client.connect("127.0.0.1", port)
    client.loop_start()
    for turn in range(10):
        client.publish(f"news/{number}", f"{number} {turn}", qos=1).wait_for_publish()
    client.loop_stop()
    client.disconnect()
    plant()
in_threads(tell)
print(done.wait(60))
listener.loop_stop()
listener.disconnect()
print(len(heard), all([one for one in heard if one[0] == str(of)] == [f"{of} {turn}" for turn in range(10)] for of in range(8)))
"""
DJANGO = SHARED + """
import io
import django
from django.conf import settings
settings.configure(
    DEBUG=False, SECRET_KEY="load", ALLOWED_HOSTS=["*"], ROOT_URLCONF=__name__, USE_TZ=True, USE_I18N=True,
    MIDDLEWARE=["django.middleware.common.CommonMiddleware", "django.contrib.sessions.middleware.SessionMiddleware",
                "django.middleware.locale.LocaleMiddleware", "django.middleware.csrf.CsrfViewMiddleware"],
    SESSION_ENGINE="django.contrib.sessions.backends.cache",
    CACHES={"default": {"BACKEND": "django.core.cache.backends.locmem.LocMemCache"}},
    TEMPLATES=[{"BACKEND": "django.template.backends.django.DjangoTemplates", "OPTIONS": {"loaders": [
        ("django.template.loaders.cached.Loader", [("django.template.loaders.locmem.Loader", {
            "base.html": "<h1>{% block title %}{% endblock %}</h1>",
            "shop.html": "{% extends 'base.html' %}{% load i18n %}{% block title %}{% trans 'Delete' %} {{ left|add:1 }} {{ when|date }}{% endblock %}",
        })])]}}],
)
django.setup()
from django import forms
from django.core.cache import cache
from django.core.handlers.wsgi import WSGIHandler
from django.dispatch import Signal
from django.http import HttpResponse
from django.template import loader
from django.urls import path, reverse
from django.utils import timezone, translation
sold = Signal()
class Order(forms.Form):
    name = forms.CharField(max_length=10)
    count = forms.IntegerField(min_value=1)
def shop(request, number):
    plant()
    request.session["seen"] = request.session.get("seen", 0) + 1
    cache.set(f"n{number}", number)
    cache.get_or_set("all", lambda: number)
    form = Order({"name": "a", "count": number})
    form.is_valid()
    sold.send(sender=Order, number=number)
    with translation.override("de" if number % 2 else "fr"):
        text = loader.render_to_string("shop.html", {"left": number, "when": timezone.now()}, request)
    return HttpResponse(text + str(form.errors) + reverse("shop", args=[number]))
urlpatterns = [path("shop/<int:number>/", shop, name="shop")]
handler = WSGIHandler()
def ask(number):
    for turn in range(3):
        environ = {"REQUEST_METHOD": "GET", "PATH_INFO": f"/shop/{number}/", "SERVER_NAME": "h", "SERVER_PORT": "80",
                   "HTTP_ACCEPT_LANGUAGE": "de", "wsgi.input": io.BytesIO(), "wsgi.url_scheme": "http"}
        answer = handler(environ, lambda status, headers, info=None: None)
        b"".join(answer)
        answer.close()
in_threads(ask)
print(sorted(cache.get(f"n{number}") for number in range(8)))
"""
WAITRESS = SHARED + """
import http.client
import waitress.server
def application(environ, start):
    plant()
    body = environ["wsgi.input"].read()
    start("200 OK", [("Content-Length", str(len(body) + 3))])
    return [b"ok ", body]
server = waitress.server.create_server(application, host="127.0.0.1", port=0, threads=4)
threading.Thread(target=server.run, daemon=True).start()
answers = [0] * 8
def ask(number):
    connection = http.client.HTTPConnection("127.0.0.1", server.effective_port)
    for turn in range(5):
        connection.request("POST", f"/{number}", b"x" * 100 * number)
        answers[number] += len(connection.getresponse().read())
    connection.close()
in_threads(ask, 4)
print(answers)
server.close()
"""
FLASK = SHARED + """
from flask import Flask, g, render_template_string, session
from flask.signals import request_finished
application = Flask("shop")
application.secret_key = "load"
@application.before_request
def begin():
    g.count = 1
@application.route("/item/<int:number>")
def item(number):
    plant()
    session["seen"] = session.get("seen", 0) + g.count
    return render_template_string("{% for one in range(count) %}{{ one }} {% endfor %}{{ session.seen }}", count=number)
@application.errorhandler(404)
def missing(error):
    return "none", 404
found = [[] for _ in range(8)]
def ask(number):
    with application.test_client() as client:
        for path in (f"/item/{number}", f"/item/{number}", "/none"):
            found[number].append(client.get(path).get_data(as_text=True))
in_threads(ask)
print(*found, sep="\\n")
"""
BOTTLE = ASKING + """
import bottle
from socketserver import ThreadingMixIn
from wsgiref.simple_server import WSGIRequestHandler, WSGIServer, make_server
application = bottle.Bottle()
@application.hook("before_request")
def begin():
    bottle.request.environ["begun"] = True
@application.route("/item/<number:int>")
def item(number):
    plant()
    bottle.response.set_header("X-Number", str(number))
    return bottle.template("{{number}} of {{turn}}", number=number, turn=bottle.request.query.turn)
class Server(ThreadingMixIn, WSGIServer):
    daemon_threads = True
class Quiet(WSGIRequestHandler):
    def log_message(self, *words):
        pass
server = make_server("127.0.0.1", 0, application, Server, Quiet)
serving = threading.Thread(target=server.serve_forever)
serving.start()
in_threads(lambda number: ask(server.server_port, number))
server.shutdown()
serving.join()
server.server_close()
print(*answers, sep="\\n")
"""
CHERRYPY = ASKING + """
import cherrypy
class Shop:
    @cherrypy.expose
    def item(self, number, turn):
        plant()
        cherrypy.session["seen"] = cherrypy.session.get("seen", 0) + 1
        return f"{number} of {turn}"
cherrypy.config.update({"server.socket_host": "127.0.0.1", "server.socket_port": port, "engine.autoreload.on": False,
                        "log.screen": False, "server.thread_pool": 4, "tools.sessions.on": True, "checker.on": False})
cherrypy.tree.mount(Shop(), "/")
cherrypy.engine.start()
cherrypy.engine.wait(cherrypy.engine.states.STARTED)
in_threads(lambda number: ask(port, number, 3), 4)
cherrypy.engine.exit()
print(*answers, sep="\\n")
"""
AIOHTTP = SHARED + """
from aiohttp import ClientSession, web
async def item(request):
    await plant_later()
    return web.json_response({"number": request.match_info["number"], "size": len(await request.read())})
async def talk(request):
    socket = web.WebSocketResponse()
    await socket.prepare(request)
    async for message in socket:
        await socket.send_str(message.data.upper())
    return socket
async def ask(session, number):
    found = []
    for turn in range(4):
        async with session.post(f"http://127.0.0.1:{port}/item/{number}", data=b"x" * 1000 * turn) as answer:
            found.append((await answer.json())["size"])
    async with session.ws_connect(f"http://127.0.0.1:{port}/talk") as socket:
        await socket.send_str(f"word {number}")
        found.append((await socket.receive()).data)
    return found
async def main():
    application = web.Application()
    application.add_routes([web.post("/item/{number}", item), web.get("/talk", talk)])
    runner = web.AppRunner(application)
    await runner.setup()
    await web.TCPSite(runner, "127.0.0.1", port).start()
    async with ClientSession() as session:
        print(*await asyncio.gather(*(ask(session, number) for number in range(8))), sep="\\n")
    await runner.cleanup()
asyncio.run(main())
"""
TORNADO = SHARED + """
import tornado.httpserver, tornado.ioloop, tornado.locks, tornado.queues, tornado.web
from tornado.httpclient import AsyncHTTPClient
class Item(tornado.web.RequestHandler):
    async def get(self, number):
        await plant_later()
        size = await tornado.ioloop.IOLoop.current().run_in_executor(None, len, "x" * int(number))
        self.render(template, number=number, size=size)
async def ask(number, found):
    client = AsyncHTTPClient()
    for turn in range(4):
        answer = await client.fetch(f"http://127.0.0.1:{port}/item/{number}")
        await found.put((number, answer.body.decode().strip()))
async def main():
    application = tornado.web.Application([(r"/item/(\\d+)", Item)])
    server = application.listen(port, "127.0.0.1")
    found = tornado.queues.Queue()
    await asyncio.gather(*(ask(number, found) for number in range(8)))
    print(*sorted([found.get_nowait() for _ in range(32)]), sep="\\n")
    server.stop()
    await server.close_all_connections()
import os, tempfile
with tempfile.TemporaryDirectory() as folder:
    template = os.path.join(folder, "item.html")
    with open(template, "w") as file:
        file.write("{{ number }} has {{ size }}")
    asyncio.run(main())
"""
TWISTED = ASKING + """
from twisted.internet import reactor
from twisted.internet.threads import deferToThread
from twisted.web import resource, server
class Item(resource.Resource):
    isLeaf = True
    def render_GET(self, request):
        def finish(text):
            request.write(text.encode())
            request.finish()
        deferToThread(self.work, request.uri).addCallback(finish)
        return server.NOT_DONE_YET
    def work(self, uri):
        plant()
        return uri.decode().partition("?")[2]
listening = reactor.listenTCP(0, server.Site(Item()), interface="127.0.0.1")
def ask_all():
    in_threads(lambda number: ask(listening.getHost().port, number))
    reactor.callFromThread(reactor.stop)
reactor.callWhenRunning(lambda: threading.Thread(target=ask_all).start())
reactor.run()
print(*answers, sep="\\n")
"""
REQUESTS = SHARED + """
import http.server
import requests
from requests.adapters import HTTPAdapter
class Handler(http.server.BaseHTTPRequestHandler):
    protocol_version = "HTTP/1.1"
    def do_GET(self):
        if self.path == "/old":
            self.send_response(302)
            self.send_header("Location", "/new")
            body = b""
        else:
            self.send_response(200)
            self.send_header("Set-Cookie", "seen=1")
            body = self.path.encode()
        self.send_header("Content-Length", str(len(body)))
        self.end_headers()
        self.wfile.write(body)
    def log_message(self, *words):
        pass
server = http.server.ThreadingHTTPServer(("127.0.0.1", 0), Handler)
serving = threading.Thread(target=server.serve_forever)
serving.start()
session = requests.Session()
session.mount("http://", HTTPAdapter(pool_connections=2, pool_maxsize=4))
found = [[] for _ in range(8)]
def heard(answer, **named):
    plant()
def ask(number):
    for path in (f"/item/{number}", "/old", f"/item/{number}"):
        answer = session.get(f"http://127.0.0.1:{server.server_port}{path}", hooks={"response": heard}, timeout=60)
        found[number].append((answer.status_code, answer.text))
in_threads(ask)
session.close()
server.shutdown()
serving.join()
server.server_close()
print(*found, sep="\\n")
"""
SQLALCHEMY = SHARED + """
import os, tempfile
from sqlalchemy import Column, ForeignKey, Integer, String, create_engine, func, select
from sqlalchemy.orm import declarative_base, relationship, scoped_session, sessionmaker
from sqlalchemy.pool import QueuePool
Base = declarative_base()
class Owner(Base):
    __tablename__ = "owner"
    id = Column(Integer, primary_key=True)
    name = Column(String)
    items = relationship("Item", back_populates="owner")
class Item(Base):
    __tablename__ = "item"
    id = Column(Integer, primary_key=True)
    count = Column(Integer)
    owner_id = Column(ForeignKey("owner.id"))
    owner = relationship("Owner", back_populates="items")
lock = threading.Lock()
def work(number):
    session = Session()
    with lock:
        session.add(Owner(name=f"owner {number}", items=[Item(count=turn) for turn in range(3)]))
        session.commit()
    for turn in range(3):
        owner = session.execute(select(Owner).where(Owner.name == f"owner {number}")).scalar_one()
        sums[number] += sum(item.count for item in owner.items)
        session.expire_all()
    plant()
    Session.remove()
sums = [0] * 8
with tempfile.TemporaryDirectory() as folder:
    engine = create_engine("sqlite:///" + os.path.join(folder, "data"), poolclass=QueuePool, pool_size=4,
                           connect_args={"check_same_thread": False, "timeout": 60})
    Base.metadata.create_all(engine)
    Session = scoped_session(sessionmaker(engine))
    in_threads(work)
    print(sums, Session().execute(select(func.count(Item.id))).scalar())
    Session.remove()
    engine.dispose()
"""
ZMQ = SHARED + """
import zmq
context, done = zmq.Context(), threading.Event()
def work(number):
    source, sink = context.socket(zmq.PULL), context.socket(zmq.PUSH)
    source.connect("inproc://jobs")
    sink.connect("inproc://results")
    while not done.is_set():
        if source.poll(10):
            plant()
            sink.send_json({"n": source.recv_json()["n"] ** 2})
    source.close()
    sink.close()
jobs, results = context.socket(zmq.PUSH), context.socket(zmq.PULL)
jobs.bind("inproc://jobs")
results.bind("inproc://results")
workers = threading.Thread(target=in_threads, args=(work, 4))
workers.start()
for n in range(40):
    jobs.send_json({"n": n})
print(sum(results.recv_json()["n"] for _ in range(40)))
done.set()
workers.join()
jobs.close()
results.close()
context.term()
"""
CACHETOOLS = SHARED + """
import cachetools
locks = [threading.Lock() for _ in range(3)]
@cachetools.cached(cachetools.LRUCache(16), lock=locks[0])
def square(n):
    plant()
    return n * n
@cachetools.cached(cachetools.TTLCache(32, 60), lock=locks[1])
def cube(n):
    return n ** 3
class Shop:
    def __init__(self):
        self.cache = cachetools.LFUCache(8)
    @cachetools.cachedmethod(lambda self: self.cache, lock=lambda self: locks[2])
    def price(self, n):
        return n + 1
shop, sums = Shop(), [0] * 8
def work(number):
    for turn in range(100):
        n = (turn * (number + 1)) % 23
        sums[number] += square(n) + cube(n) + shop.price(n)
in_threads(work)
print(sums)
"""
SORTEDCONTAINERS = SHARED + """
from sortedcontainers import SortedDict, SortedKeyList, SortedSet
table, rows, names, lock = SortedDict({-1: 0, 999: 0}), SortedKeyList(key=lambda row: -row), SortedSet(), threading.RLock()
def work(number):
    for turn in range(50):
        with lock:
            table[number * 50 + turn] = turn
            rows.add(turn)
            names.add(f"name {turn}")
            if turn % 5 == 0:
                table.popitem(1)
                rows.discard(turn)
        plant()
        with lock:
            table.peekitem(-1), rows.bisect(turn), names[0]
in_threads(work)
print(len(table), len(rows), len(names), sum(rows), table.peekitem(-1))
"""
DISKCACHE = SHARED + """
import tempfile
import diskcache
def work(number):
    for turn in range(10):
        cache.set((number, turn), "x" * 10 * turn)
        cache.incr("count")
        plant()
    with diskcache.Lock(cache, "lock"):
        cache["last"] = cache.get("last", 0) + 1
    deque.append(number)
with tempfile.TemporaryDirectory() as folder, diskcache.Cache(folder + "/cache", timeout=60) as cache:
    deque = diskcache.Deque(directory=folder + "/deque")
    in_threads(work)
    print(cache["count"], cache["last"], sum(len(cache[number, turn]) for number in range(8) for turn in range(10)), sorted(deque))
"""
BLINKER = SHARED + """
import blinker
sold, heard, lock = blinker.signal("sold"), [], threading.Lock()
class Shop:
    pass
def hear(sender, number):
    plant()
    with lock:
        heard.append(number)
def work(number):
    shop = Shop()
    def own(sender, number):
        return number
    for turn in range(10):
        sold.connect(own, sender=shop)
        sold.send(shop, number=number)
        blinker.signal(f"news {turn}").send(number)
        sold.disconnect(own, sender=shop)
sold.connect(hear)
in_threads(work)
print(sorted(heard) == sorted(list(range(8)) * 10))
"""
JINJA2 = SHARED + """
import jinja2
environment = jinja2.Environment(cache_size=3, loader=jinja2.DictLoader({
    "base": "<{% block body %}{% endblock %}>",
    **{f"page{n}": "{% extends 'base' %}{% from 'macros' import row %}{% block body %}{{ row(n)|upper }}{% endblock %}" for n in range(6)},
    "macros": "{% macro row(n) %}row {{ n }} {{ told(n) }}{% endmacro %}",
}))
def told(n):
    plant()
    return n
environment.globals["told"] = told
found = [""] * 8
def work(number):
    for n in range(6):
        found[number] += environment.get_template(f"page{(n + number) % 6}").render(n=(n + number) % 6)
    found[number] += environment.from_string("{{ n }}").render(n=number)
in_threads(work)
print(*found, sep="\\n")
"""
MAKO = SHARED + """
import os, tempfile
from mako.lookup import TemplateLookup
def work(number):
    for n in range(4):
        template = lookup.get_template(f"page{(n + number) % 4}.html")
        found[number] += template.render(n=n, told=told).strip()
def told(n):
    plant()
    return n
found = [""] * 8
with tempfile.TemporaryDirectory() as folder:
    for n in range(4):
        with open(os.path.join(folder, f"page{n}.html"), "w") as file:
            file.write(f"<%inherit file='base.html'/>page {n} has ${{told(n)}}")
    with open(os.path.join(folder, "base.html"), "w") as file:
        file.write("<${self.body()}>")
    lookup = TemplateLookup([folder], collection_size=3, filesystem_checks=True)
    in_threads(work)
print(*found, sep="\\n")
"""
BABEL = SHARED + """
import datetime
from babel import Locale, dates, numbers, plural
day = datetime.datetime(2026, 12, 1, 12, 30)
found = [None] * 8
def work(number):
    name = ["de", "fr", "en_US", "ja"][number % 4]
    locale = Locale.parse(name)
    found[number] = (locale.display_name, dates.format_datetime(day, locale=locale), numbers.format_currency(1234.5, "EUR", locale=name),
                     locale.plural_form(number), dates.format_timedelta(datetime.timedelta(days=number), locale=name))
    plant()
in_threads(work)
print(*found, sep="\\n")
"""
PYGMENTS = SHARED + """
import pygments
from pygments.formatters import HtmlFormatter
from pygments.lexers import get_lexer_by_name
sources = {"python": "def f(x): return x + 1", "json": '{"a": [1]}', "sql": "select a from b", "html": "<p class='a'>b</p>"}
found = [0] * 8
def work(number):
    for turn in range(2):
        for name in sorted(sources)[number % 4:] + sorted(sources)[:number % 4]:
            found[number] += len(pygments.highlight(sources[name], get_lexer_by_name(name), HtmlFormatter()))
            plant()
in_threads(work)
print(found)
"""
JOBLIB = SHARED + """
import tempfile
from joblib import Memory, Parallel, delayed
def square(n):
    return n * n
def job(n):
    plant()
    return square(n)
with tempfile.TemporaryDirectory() as folder:
    square = Memory(folder, verbose=0).cache(square)
    for turn in range(2):
        print(sum(Parallel(n_jobs=4, backend="threading")(delayed(job)(n) for n in range(20))))
"""
APSCHEDULER = SHARED + """
import datetime
from apscheduler.executors.pool import ThreadPoolExecutor
from apscheduler.schedulers.background import BackgroundScheduler
heard, lock, done = [], threading.Lock(), threading.Event()
def job(number, turn):
    plant()
    with lock:
        heard.append((number, turn))
        if len(heard) == 24:
            done.set()
scheduler = BackgroundScheduler(executors={"default": ThreadPoolExecutor(4)}, job_defaults={"misfire_grace_time": 60}, timezone="UTC")
scheduler.start()
def work(number):
    for turn in range(3):
        scheduler.add_job(job, "date", args=(number, turn), id=f"{number} {turn}")
    scheduler.add_job(job, "interval", hours=1, args=(number, 9), id=f"later {number}")
    scheduler.reschedule_job(f"later {number}", trigger="interval", hours=2)
    scheduler.remove_job(f"later {number}")
in_threads(work)
print(done.wait(60), scheduler.get_jobs())
scheduler.shutdown()
print(sorted(heard))
"""
FUTURIST = SHARED + """
import futurist
from futurist import periodics, waiters
done, times = threading.Event(), []
@periodics.periodic(spacing=0.01)
def tick():
    times.append(1)
    if len(times) == 5:
        done.set()
def job(n):
    plant()
    return n * n
with futurist.ThreadPoolExecutor(max_workers=4) as executor:
    futures = [executor.submit(job, n) for n in range(20)]
    finished, _ = waiters.wait_for_all(futures)
    print(sorted(future.result() for future in finished), executor.statistics.executed >= 0)
worker = periodics.PeriodicWorker([(tick, (), {})])
ticking = threading.Thread(target=worker.start)
ticking.start()
print(done.wait(60))
worker.stop()
worker.wait()
ticking.join()
"""
DASK = SHARED + """
import dask
from dask import delayed, threaded
def add(a, b):
    plant()
    return a + b
def total(number):
    rows = [delayed(add)(n, number) for n in range(10)]
    while len(rows) > 1:
        rows = [delayed(add)(*pair) for pair in zip(rows[::2], rows[1::2])] + (rows[-1:] if len(rows) % 2 else [])
    return rows[0]
with dask.config.set(scheduler="threads", num_workers=4):
    print(dask.compute(*(total(number) for number in range(4))))
sums = [0] * 4
def work(number):
    sums[number] = threaded.get({"a": 1, "b": (add, "a", number), "c": (sum, ["a", "b"])}, "c")
in_threads(work, 4)
print(sums)
"""
FILELOCK = SHARED + """
import os, tempfile
import filelock
def work(number):
    own = filelock.FileLock(path, timeout=60)
    for turn in range(5):
        with own:
            with open(counted) as file:
                n = int(file.read())
            with open(counted, "w") as file:
                file.write(str(n + 1))
        with one_for_all, one_for_all:
            plant()
with tempfile.TemporaryDirectory() as folder:
    path, counted = os.path.join(folder, "lock"), os.path.join(folder, "count")
    one_for_all = filelock.FileLock(os.path.join(folder, "other"), timeout=60)
    with open(counted, "w") as file:
        file.write("0")
    in_threads(work)
    with open(counted) as file:
        print(file.read(), one_for_all.is_locked)
"""
FASTENERS = SHARED + """
import fasteners
lock, counts = fasteners.ReaderWriterLock(), {"n": 0}
class Shop:
    def __init__(self):
        self._lock, self.sold = threading.RLock(), 0
    @fasteners.locked
    def sell(self):
        self.sold += 1
shop = Shop()
def work(number):
    for turn in range(10):
        if (turn + number) % 4:
            with lock.read_lock():
                counts["n"]
        else:
            with lock.write_lock():
                counts["n"] += 1
        shop.sell()
        plant()
in_threads(work)
print(counts, shop.sold)
"""
WATCHDOG = SHARED + """
import os, tempfile
from watchdog.events import FileSystemEventHandler
from watchdog.observers import Observer
names, lock, done = set(), threading.Lock(), threading.Event()
class Handler(FileSystemEventHandler):
    def on_created(self, event):
        plant()
        with lock:
            names.add(os.path.basename(event.src_path))
            if len(names) == 24:
                done.set()
def work(number):
    for turn in range(3):
        with open(os.path.join(folders[number % 2], f"file {number} {turn}"), "w") as file:
            file.write("x")
    plant()
with tempfile.TemporaryDirectory() as folder:
    folders = [os.path.join(folder, "a"), os.path.join(folder, "b")]
    observer = Observer()
    observer.start()
    for one in folders:
        os.mkdir(one)
        observer.schedule(Handler(), one, recursive=True)
    in_threads(work)
    print(done.wait(60), sorted(names))
    observer.unschedule_all()
    observer.stop()
    observer.join()
"""
LOGURU = SHARED + """
import sys
from loguru import logger
lines, later = [], []
logger.remove()
def sink(message):
    plant()
    lines.append(str(message))
logger.add(lines.append, format="{extra[number]} {message}")
logger.add(later.append, format="{message}", enqueue=True)
logger.add(sink, format="{level} {message}", filter=lambda record: record["extra"]["number"] % 2)
def work(number):
    bound = logger.bind(number=number)
    own = logger.add(lambda message: None)
    for turn in range(5):
        bound.info("turn {}", turn)
        bound.opt(lazy=True).debug("lazy {}", lambda: turn)
    plant()
    logger.remove(own)
in_threads(work)
logger.complete()
logger.remove()
print(len(lines), len(later), sorted(map(str, later))[:3])
"""
STRUCTLOG = SHARED + """
import structlog
lines = []
def keep(logger, name, event):
    plant()
    lines.append((event["number"], event["turn"], event.get("request")))
    raise structlog.DropEvent
structlog.configure(processors=[structlog.contextvars.merge_contextvars, structlog.processors.add_log_level, keep],
                    cache_logger_on_first_use=True)
log = structlog.get_logger()
def work(number):
    structlog.contextvars.bind_contextvars(request=number)
    for turn in range(5):
        log.bind(number=number).info("sold", turn=turn)
in_threads(work)
print(sorted(lines))
"""
PARAMIKO = SHARED + """
import socket
import paramiko
class Server(paramiko.ServerInterface):
    def check_auth_password(self, name, password):
        return paramiko.AUTH_SUCCESSFUL if password == "word" else paramiko.AUTH_FAILED
    def check_channel_request(self, kind, number):
        return paramiko.OPEN_SUCCEEDED
    def check_channel_exec_request(self, channel, command):
        def answer():
            plant()
            channel.sendall(command.upper())
            channel.send_exit_status(len(command))
        threading.Thread(target=answer).start()
        return True
ends = socket.socketpair()
serving = paramiko.Transport(ends[0])
serving.add_server_key(paramiko.RSAKey.generate(1024))
serving.start_server(server=Server(), event=threading.Event())
client = paramiko.Transport(ends[1])
client.connect(username="load", password="word")
found = [None] * 4
def work(number):
    for turn in range(3):
        channel = client.open_session(timeout=60)
        channel.exec_command(f"command {number}")
        found[number] = (channel.recv_exit_status(), channel.recv(99))
        channel.close()
in_threads(work, 4)
client.close()
serving.close()
print(*found, sep="\\n")
"""
WEBSOCKETS = SHARED + """
import websockets
connected = set()
async def handle(socket, *path):
    connected.add(socket)
    async for message in socket:
        await plant_later()
        await socket.send(message.upper())
    connected.discard(socket)
async def ask(number):
    found = []
    async with websockets.connect(f"ws://127.0.0.1:{port}") as socket:
        for turn in range(5):
            await socket.send(f"word {number} {turn}")
            found.append(await socket.recv())
        await (await socket.ping())
    return found
async def main():
    async with websockets.serve(handle, "127.0.0.1", port):
        print(*await asyncio.gather(*(ask(number) for number in range(8))), sep="\\n")
asyncio.run(main())
"""
DNSPYTHON = SHARED + """
import socket
import dns.message, dns.resolver, dns.rrset
server = socket.socket(socket.AF_INET, socket.SOCK_DGRAM)
server.bind(("127.0.0.1", 0))
def serve():
    while (asked := server.recvfrom(4096))[0] != b"end":
        question = dns.message.from_wire(asked[0])
        answer = dns.message.make_response(question)
        answer.answer.append(dns.rrset.from_text(question.question[0].name, 60, "IN", "A", "127.0.0.7"))
        server.sendto(answer.to_wire(), asked[1])
serving = threading.Thread(target=serve)
serving.start()
resolver = dns.resolver.Resolver(configure=False)
resolver.nameservers, resolver.port = ["127.0.0.1"], server.getsockname()[1]
resolver.cache = dns.resolver.LRUCache(8)
found = [[] for _ in range(8)]
def work(number):
    for turn in range(5):
        found[number].append(resolver.resolve(f"host{(turn + number) % 6}.example.", "A", lifetime=60)[0].address)
        plant()
in_threads(work)
server.sendto(b"end", server.getsockname())
serving.join()
print(*found, sep="\\n")
"""
NETWORKX = SHARED + """
import networkx
graph = networkx.path_graph(30)
graph.add_edges_from((n, (n * 7) % 30) for n in range(30))
found = [None] * 8
def work(number):
    found[number] = (networkx.shortest_path_length(graph, number, 29 - number), networkx.number_connected_components(graph),
                     len(list(graph.nodes)), len(graph.adj[number]), round(networkx.density(graph), 3), len(graph.edges))
    own = networkx.DiGraph(graph.edges)
    own.add_node("own")
    found[number] += (own.number_of_nodes(), networkx.is_directed_acyclic_graph(own))
    plant()
in_threads(work)
print(*found, sep="\\n")
"""
SYMPY = SHARED + """
import sympy
x, y = sympy.symbols("x y")
found = [None] * 4
def work(number):
    expanded = sympy.expand((x + y + number) ** 3)
    found[number] = (str(sympy.diff(expanded, x)), str(sympy.factor(expanded)), str(sympy.solve(x ** 2 - number, x)),
                     sympy.prime(number + 5), sympy.sqrt(number + 2).evalf(10))
    plant()
in_threads(work, 4)
print(*found, sep="\\n")
"""
CELERY = SHARED + """
import celery
from celery.contrib.testing.worker import start_worker
application = celery.Celery("load", broker="memory://", backend="cache+memory://")
application.conf.update(worker_pool="threads", worker_concurrency=4, broker_connection_retry_on_startup=True)
@application.task
def add(a, b):
    plant()
    return a + b
with start_worker(application, pool="threads", concurrency=4, perform_ping_check=False, loglevel="ERROR"):
    results = [add.delay(n, n) for n in range(20)]
    print([result.get(timeout=60) for result in results])
"""
HTML5LIB = SHARED + """
import html5lib
found = [None] * 8
for name in ("etree", "dom"):
    html5lib.getTreeBuilder(name), html5lib.getTreeWalker(name)
def work(number):
    tree = html5lib.parse(f"<p>one<b>{number}</b><table><tr><td>x", treebuilder=["etree", "dom"][number % 2])
    walker = html5lib.getTreeWalker(["etree", "dom"][number % 2])
    found[number] = html5lib.serializer.HTMLSerializer(omit_optional_tags=False).render(walker(tree))
    plant()
in_threads(work)
print(*found, sep="\\n")
"""
MARKDOWN = SHARED + """
import markdown
text = "# Title\\n\\n* one\\n* two\\n\\n| a | b |\\n|---|---|\\n| 1 | 2 |\\n\\n```\\ncode\\n```\\n\\nA [link](to) and *words*[^1].\\n\\n[^1]: note\\n"
found = [0] * 8
def work(number):
    for turn in range(3):
        found[number] += len(markdown.markdown(text, extensions=["tables", "fenced_code", "footnotes", "toc"]))
        plant()
in_threads(work)
print(found)
"""
TRIO = SHARED + """
import trio
sums, lock = [0] * 4, trio.Lock()
async def produce(number, sending):
    async with sending:
        for n in range(10):
            await sending.send(n * number)
async def consume(number, receiving):
    async with receiving:
        async for n in receiving:
            async with lock:
                sums[0] += n
            sums[1] += 0 * await trio.to_thread.run_sync(work, n)
def work(n):
    plant()
    return n
async def main():
    async with trio.open_nursery() as nursery:
        sending, receiving = trio.open_memory_channel(4)
        async with sending, receiving:
            for number in range(4):
                nursery.start_soon(produce, number, sending.clone())
                nursery.start_soon(consume, number, receiving.clone())
trio.run(main)
print(sums)
"""
GUNICORN = SHARED + """
import http.client, os, signal
from gunicorn.app.base import BaseApplication
class Application(BaseApplication):
    def load_config(self):
        for name, value in {"bind": f"127.0.0.1:{port}", "workers": 1, "threads": 4, "worker_class": "gthread", "loglevel": "critical",
                            "post_fork": lambda arbiter, worker: threading.Thread(target=ask_all, daemon=True).start()}.items():
            self.cfg.set(name, value)
    def load(self):
        def application(environ, start):
            plant()
            body = environ["PATH_INFO"].encode()
            start("200 OK", [("Content-Length", str(len(body)))])
            return [body]
        return application
def ask(number):
    connection = http.client.HTTPConnection("127.0.0.1", port, timeout=60)
    for turn in range(5):
        connection.request("GET", f"/{number}")
        answers[number] += len(connection.getresponse().read())
    connection.close()
answers = [0] * 4
def ask_all():
    in_threads(ask, 4)
    print(answers, flush=True)
    os.kill(os.getppid(), signal.SIGTERM)
Application().run()
"""

LOADS = {
    "redis": Load(REDIS, ("redis",), ("redis-server", "python3-redis"), "redis"),
    "postgres": Load(POSTGRES, ("psycopg2",), ("postgresql", "python3-psycopg2"), "postgres"),
    "mosquitto": Load(MOSQUITTO, ("paho",), ("mosquitto", "python3-paho-mqtt"), "mosquitto"),
    "django": Load(DJANGO, ("django",), ("python3-django",)),
    "waitress": Load(WAITRESS, ("waitress",), ("python3-waitress",)),
    "flask": Load(FLASK, ("flask", "werkzeug", "jinja2"), ("python3-flask",)),
    "bottle": Load(BOTTLE, ("bottle",), ("python3-bottle",)),
    "cherrypy": Load(CHERRYPY, ("cherrypy", "cheroot"), ("python3-cherrypy3",)),
    "aiohttp": Load(AIOHTTP, ("aiohttp",), ("python3-aiohttp",)),
    "tornado": Load(TORNADO, ("tornado",), ("python3-tornado",)),
    "twisted": Load(TWISTED, ("twisted.web",), ("python3-twisted",)),
    "gunicorn": Load(GUNICORN, ("gunicorn",), ("python3-gunicorn",)),
    "requests": Load(REQUESTS, ("requests", "urllib3"), ("python3-requests",)),
    "sqlalchemy": Load(SQLALCHEMY, ("sqlalchemy",), ("python3-sqlalchemy",)),
    "zmq": Load(ZMQ, ("zmq",), ("python3-zmq",)),
    "cachetools": Load(CACHETOOLS, ("cachetools",), ("python3-cachetools",)),
    "sortedcontainers": Load(SORTEDCONTAINERS, ("sortedcontainers",), ("python3-sortedcontainers",)),
    "diskcache": Load(DISKCACHE, ("diskcache",), ("python3-diskcache",)),
    "blinker": Load(BLINKER, ("blinker",), ("python3-blinker",)),
    "jinja2": Load(JINJA2, ("jinja2",), ("python3-jinja2",)),
    "mako": Load(MAKO, ("mako",), ("python3-mako",)),
    "babel": Load(BABEL, ("babel",), ("python3-babel",)),
    "markdown": Load(MARKDOWN, ("markdown",), ("python3-markdown",)),
    "html5lib": Load(HTML5LIB, ("html5lib",), ("python3-html5lib",)),
    "pygments": Load(PYGMENTS, ("pygments",), ("python3-pygments",)),
    "joblib": Load(JOBLIB, ("joblib",), ("python3-joblib",)),
    "apscheduler": Load(APSCHEDULER, ("apscheduler",), ("python3-apscheduler",)),
    "futurist": Load(FUTURIST, ("futurist",), ("python3-futurist",)),
    "dask": Load(DASK, ("dask",), ("python3-dask",)),
    "celery": Load(CELERY, ("celery", "kombu", "vine"), ("python3-celery",)),
    "filelock": Load(FILELOCK, ("filelock",), ("python3-filelock",)),
    "fasteners": Load(FASTENERS, ("fasteners",), ("python3-fasteners",)),
    "watchdog": Load(WATCHDOG, ("watchdog",), ("python3-watchdog",)),
    "loguru": Load(LOGURU, ("loguru",), ("python3-loguru",)),
    "structlog": Load(STRUCTLOG, ("structlog",), ("python3-structlog",)),
    "paramiko": Load(PARAMIKO, ("paramiko",), ("python3-paramiko",)),
    "websockets": Load(WEBSOCKETS, ("websockets",), ("python3-websockets",)),
    "dnspython": Load(DNSPYTHON, ("dns",), ("python3-dnspython",)),
    "networkx": Load(NETWORKX, ("networkx",), ("python3-networkx",)),
    "sympy": Load(SYMPY, ("sympy",), ("python3-sympy",)),
    "trio": Load(TRIO, ("trio",), ("python3-trio",)),
}
