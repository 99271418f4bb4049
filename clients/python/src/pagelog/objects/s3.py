"""A bucket of S3, or of a server that speaks its protocol, by boto3, which finds its keys as it always does: in the environment, in
its own files, or from the machine's role."""

from __future__ import annotations

import base64
import hashlib
from contextlib import contextmanager, suppress
from typing import Any, Iterator
from urllib.parse import urlsplit

from pagelog.objects.errors import Missing, StoreAway, StoreError, Taken
from pagelog.objects.settings import StoreSettings

try:
    import boto3
    import botocore.config
    import botocore.exceptions
except ImportError as error:
    raise StoreError("a store at s3: needs boto3: apt-get install python3-boto3") from error

_NO_HOLD = ("NoSuchObjectLockConfiguration", "ObjectLockConfigurationNotFoundError")
"""What is said of an object that never had a legal hold; the second by radosgw."""
_GONE = ("NoSuchKey", "404", "NotFound")
_BUSY = (
    "SlowDown",
    "InternalError",
    "ServiceUnavailable",
    "RequestTimeout",
    "RequestTimeTooSkewed",
    "OperationAborted",
)
_TAKEN = 412
CONNECT, READ, TRIES = 5, 30, 3
"""Seconds after which a server that is silent is given up, and how often."""


class Bucket:
    """Objects under the prefix of a bucket."""

    def __init__(self, settings: StoreSettings) -> None:
        parts = urlsplit(settings.url)
        self._bucket, self._prefix = parts.netloc, parts.path.strip("/")
        self._sse = {"ServerSideEncryption": settings.sse} if settings.sse else {}
        if settings.sse_key:
            self._sse["SSEKMSKeyId"] = settings.sse_key
        options: dict[str, Any] = {
            "retries": {"max_attempts": TRIES, "mode": "standard"},
            "connect_timeout": CONNECT,
            "read_timeout": READ,
        }
        if "request_checksum_calculation" in botocore.config.Config.OPTION_DEFAULTS:
            options[
                "request_checksum_calculation"
            ] = "when_required"  # else a put has checksums that other servers do not know
        try:
            session = boto3.session.Session(
                profile_name=settings.profile, region_name=settings.region
            )
            self._client: Any = session.client(
                "s3", endpoint_url=settings.endpoint_url, config=botocore.config.Config(**options)
            )
        except botocore.exceptions.BotoCoreError as error:
            raise StoreError(f"the store: {error}") from error

    def _key(self, key: str) -> str:
        return f"{self._prefix}/{key}" if self._prefix else key

    @contextmanager
    def _asking(self, key: str) -> Iterator[None]:
        try:
            yield
        except botocore.exceptions.ClientError as error:
            code = str(error.response.get("Error", {}).get("Code", ""))
            status = int(error.response.get("ResponseMetadata", {}).get("HTTPStatusCode", 0))
            if code in _GONE:
                raise Missing(f"the store has no object {key}") from error
            if status == _TAKEN:
                raise Taken(f"the store has {key} already, and does not write it again") from error
            kind = StoreAway if status >= 500 and status != 501 or code in _BUSY else StoreError
            raise kind(
                f"the store refuses {key}: {code} {error.response.get('Error', {}).get('Message', '')}".strip()
            ) from error
        except (
            botocore.exceptions.NoCredentialsError,
            botocore.exceptions.ParamValidationError,
        ) as error:
            raise StoreError(f"the store: {error}") from error
        except (botocore.exceptions.BotoCoreError, OSError) as error:
            raise StoreAway(f"the store does not answer: {error}") from error

    def put(self, key: str, data: bytes) -> None:
        """As of any store. The server compares an MD5 of the bytes; who puts reads them back all the same."""
        digest = base64.b64encode(hashlib.md5(data, usedforsecurity=False).digest()).decode()
        try:
            with self._asking(key):
                said = self._client.put_object(
                    Bucket=self._bucket,
                    Key=self._key(key),
                    Body=data,
                    ContentMD5=digest,
                    **self._sse,
                )
        except Taken as error:
            if self.get(key) != data:
                raise Taken(f"{error}: its bytes are others") from error
            return  # as by a put whose reply was lost
        if self._sse and said.get("ServerSideEncryption") != self._sse["ServerSideEncryption"]:
            raise StoreError(
                f"the store does not confirm that {key} is encrypted by {self._sse['ServerSideEncryption']}"
            )

    def get(self, key: str, start: int = 0, length: int | None = None) -> bytes:
        """As of any store."""
        if length == 0:
            return b""
        part = (
            {}
            if start == 0 and length is None
            else {"Range": f"bytes={start}-{'' if length is None else start + length - 1}"}
        )
        with self._asking(key):
            try:
                found: bytes = self._client.get_object(
                    Bucket=self._bucket, Key=self._key(key), **part
                )["Body"].read()
            except botocore.exceptions.ClientError as error:
                if error.response.get("Error", {}).get("Code") != "InvalidRange":
                    raise
                return b""  # it ends before: it has other bytes
        return found

    def older(self, key: str) -> Iterator[bytes]:
        """As of any store."""
        for version in self._versions(key):
            with self._asking(key):
                yield self._client.get_object(**version)["Body"].read()

    def _versions(self, key: str) -> Iterator[dict[str, str]]:
        """Which there are of an object, as a request names each, the newest first."""
        of = {"Bucket": self._bucket, "Key": self._key(key)}
        with self._asking(key):
            said = self._client.list_object_versions(Bucket=self._bucket, Prefix=self._key(key))
        for version in said.get("Versions", ()):
            if version["Key"] == of["Key"]:
                yield {**of, "VersionId": version["VersionId"]}

    def list(self, prefix: str, after: str = "") -> Iterator[tuple[str, int]]:
        """As of any store."""
        left, behind = len(self._key("")), {"StartAfter": self._key(after)} if after else {}
        with self._asking(prefix):
            for page in self._client.get_paginator("list_objects_v2").paginate(
                Bucket=self._bucket, Prefix=self._key(prefix), **behind
            ):
                for each in page.get("Contents", ()):
                    yield each["Key"][left:], int(each["Size"])

    def delete(self, key: str) -> None:
        """As of any store."""
        with self._asking(key):
            self._client.delete_object(Bucket=self._bucket, Key=self._key(key))

    def check_legal_holds(self) -> None:
        """Raises `StoreError` where the bucket has no object lock, without which there are none."""
        try:
            with self._asking("its object lock"):
                said = self._client.get_object_lock_configuration(Bucket=self._bucket)
        except StoreAway:
            raise
        except StoreError as error:
            raise StoreError(f"{self._no_lock}: {error}") from error
        if said.get("ObjectLockConfiguration", {}).get("ObjectLockEnabled") != "Enabled":
            raise StoreError(self._no_lock)

    @property
    def _no_lock(self) -> str:
        return f"the bucket {self._bucket} has no object lock, and so no legal holds"

    def hold(self, key: str, is_on: bool) -> None:
        """Puts a legal hold on each version of an object, or takes it off. Returns once the store
        says that it is so. Raises `Missing` where there is no version."""
        wanted, is_there = "ON" if is_on else "OFF", False
        for version in self._versions(key):
            is_there = True
            with self._asking(key):
                if self._hold_of(version) != wanted:
                    self._client.put_object_legal_hold(LegalHold={"Status": wanted}, **version)
                said = self._hold_of(version)
            if said != wanted:
                raise StoreError(f"the store does not confirm the legal hold of {key}: {said}")
        if not is_there:
            raise Missing(f"the store has no object {key}")

    def _hold_of(self, version: dict[str, str]) -> str:
        try:
            said = self._client.get_object_legal_hold(**version)
        except botocore.exceptions.ClientError as error:
            if error.response.get("Error", {}).get("Code") not in _NO_HOLD:
                raise
            return "OFF"
        return str(said.get("LegalHold", {}).get("Status", "OFF"))

    def features(self, key: str) -> Iterator[tuple[str, str, bool]]:
        """What the server does of MD5, versions and locks: what is asked, what it says, and whether that is enough."""
        wrong = base64.b64encode(hashlib.md5(b"other", usedforsecurity=False).digest()).decode()
        try:
            self._client.put_object(
                Bucket=self._bucket, Key=self._key(key), Body=b"one", ContentMD5=wrong
            )
            yield "a wrong Content-MD5", "taken: what is put is compared by reading it back alone", True
        except botocore.exceptions.ClientError as error:
            yield "a wrong Content-MD5", f"refused ({error.response.get('Error', {}).get('Code')})", True
        for what, call, of in (
            ("versions", self._client.get_bucket_versioning, ("Status",)),
            (
                "object lock",
                self._client.get_object_lock_configuration,
                ("ObjectLockConfiguration", "ObjectLockEnabled"),
            ),
        ):
            try:
                found: Any = call(Bucket=self._bucket)
                for name in of:
                    found = (found or {}).get(name)
                yield what, str(found or "no"), True
            except botocore.exceptions.ClientError as error:
                yield what, f"no ({error.response.get('Error', {}).get('Code')})", True
        with suppress(StoreError):
            self.delete(key)
