<?php

interface I {}
class C {}
